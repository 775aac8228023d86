//! The words of the command line.

pub struct Options {
    pub seed: u64,
    /// Random cases, over all calls; the fixed ones come on top.
    pub cases: usize,
    pub long: bool,
    /// An archive that does not have every call yet is no failure.
    pub partial: bool,
    pub self_test: bool,
    pub record: Option<String>,
    pub case: Option<String>,
    pub tablets: Option<String>,
    pub statements: Option<String>,
    /// How the server is started.
    pub server: Vec<String>,
}

const CASES: usize = 1_000_000;
const CASES_LONG: usize = 5_500_000;
const SEED: u64 = 20_261_115;

pub const USAGE: &str = "usage: oracle [--seed N] [--cases N] [--long] [--partial] -- SERVER [WORD..]
       oracle --case 'LINE' -- SERVER [WORD..]     one case, as a difference prints it
       oracle --self-test -- SERVER [WORD..]       a changed constant must be found
       oracle --tablets DIR -- SERVER [WORD..]     what comes back of real databases
       oracle [--seed N] [--cases N] --statements DIR -- SERVER [WORD..]     made-up statements, through sqlite3 too
       oracle [--seed N] --record DIR              cases, and what programs must print of them";

pub fn parse(words: impl Iterator<Item = String>) -> Result<Options, String> {
    let mut words = words;
    let mut options = Options {
        seed: SEED,
        cases: 0,
        long: false,
        partial: false,
        self_test: false,
        record: None,
        case: None,
        tablets: None,
        statements: None,
        server: Vec::new(),
    };
    let mut cases = None;
    while let Some(word) = words.next() {
        let mut value = || words.next().ok_or(format!("{word} needs a word behind it"));
        match word.as_str() {
            "--seed" => options.seed = number(&value()?)?,
            "--cases" => cases = Some(number(&value()?)? as usize),
            "--long" => options.long = true,
            "--partial" => options.partial = true,
            "--self-test" => options.self_test = true,
            "--record" => options.record = Some(value()?),
            "--case" => options.case = Some(value()?),
            "--tablets" => options.tablets = Some(value()?),
            "--statements" => options.statements = Some(value()?),
            "--" => options.server.extend(words.by_ref()),
            _ => return Err(format!("unknown word {word}")),
        }
    }
    options.cases = cases.unwrap_or(if options.long { CASES_LONG } else { CASES });
    Ok(options)
}

fn number(text: &str) -> Result<u64, String> {
    text.parse().map_err(|_| format!("{text} is no number"))
}
