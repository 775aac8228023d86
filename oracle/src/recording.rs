//! Cases for the programs `answers`, `carved` and `walked`, and what they must print: the answers by the rules, at one with the
//! Rust where it was asked. README.md has the formats.

mod file;
mod line;
mod program;

use crate::calls::{self, rebuilding, Given, BLOCK, COLUMN_HINTS, GAPS, LEAVES, RECOVER};
use crate::case::Case;
use crate::cases::worked::{self, Worked};
use crate::cases::{self, limits, regions, telling, Plan};
use crate::compare::{against_the_rust, expected, Asked};
use crate::panics;
use crate::rules::limits::{Limits, NO_GUESSES};
use crate::runner::Sink;
use crate::selftest::noticing;
use crate::text;
use program::Program;
use std::collections::{HashMap, HashSet};
use std::{io, path::Path};

/// Slices and cells in all of a case that is one of many, and of one that is a walk: about eight pages with the lists.
const LARGEST_OF_MANY: usize = 1200;
const LARGEST_WALK: usize = 8 * 512 + 700;

/// Rebuilding reads up to 510 bytes of types at every start of a payload: of a longer one an unproved run does not end in time.
const LARGEST_REBUILT: usize = 8192;

/// Words of a slice of a case that is one of many.
const MOST_WORDS_OF_MANY: usize = 300;

/// Cases of one kind: the first few, and then ever fewer of the many, the sooner the larger they are.
const FIRST: usize = 6;
const GROWTH: f64 = 2.0;
const GROWTH_BY_SIZE: f64 = 1.0 / 500.0;

/// A case's line stands behind its name where it is no longer.
const LONGEST_LINE: usize = 240;

const UNNAMED: &str = "Cases by their place";

struct Recorder {
    answers: Program,
    carved: Program,
    walked: Program,
    limits: Limits,
    /// By call, whether it is without guesses, number and rows: how many came, and the next one to take.
    kinds: HashMap<(u8, bool, u64, u64), (usize, f64)>,
    /// As the server would have them, so that none comes twice.
    taken: HashSet<Vec<u8>>,
    keep_all: bool,
    /// Why there is no recording.
    fails: Vec<String>,
}

impl Sink for Recorder {
    fn put(&mut self, case: Case) {
        if self.fails.is_empty() && records(case.call) && has_room(&case) && (self.keep_all || self.wanted(&case)) {
            self.take("", &case);
        }
    }

    fn wants_by_format(&self) -> bool {
        records(COLUMN_HINTS)
    }
}

impl Recorder {
    fn wanted(&mut self, case: &Case) -> bool {
        let largest = if walks(case) { LARGEST_WALK } else { LARGEST_OF_MANY };
        if case.size() > largest || case.words.iter().any(|words| words.len() > MOST_WORDS_OF_MANY) {
            return false;
        }
        let answer = (calls::of(case).answer)(&self.limits, case);
        let found = answer.out[0].min(3);
        let without_guesses = rebuilding(case).0 == Some(NO_GUESSES);
        let kind = (case.call, without_guesses, answer.number, found);
        let (seen, next) = self.kinds.entry(kind).or_insert((0, 0.0));
        *seen += 1;
        if *seen <= FIRST || *seen as f64 >= *next {
            *next = *seen as f64 * (GROWTH + case.size() as f64 * GROWTH_BY_SIZE);
            return true;
        }
        false
    }

    /// A case may show two rules, under two names; without a name none comes twice.
    fn take(&mut self, name: &str, case: &Case) {
        let call = calls::of(case);
        let mut frame = Vec::new();
        case.frame(call.lists, &mut frame);
        if !self.taken.insert(frame) && name.is_empty() {
            return;
        }
        let (answer, asked) = expected(&self.limits, case);
        if let Some(why) = against_the_rust(case, &asked) {
            self.fail("DIFFERENCE", &format!("{why}: {}", text::line(case)));
        }
        self.program(case).put(name, case, &answer, asked == Asked::Said(Given::Agrees));
    }

    /// The program that makes the call of a case.
    fn program(&mut self, case: &Case) -> &mut Program {
        if walks(case) {
            &mut self.walked
        } else if calls::of(case).writes_rows() {
            &mut self.carved
        } else {
            &mut self.answers
        }
    }

    fn fail(&mut self, what: &str, why: &str) {
        self.fails.push(format!("{what}: {why}"));
    }

    fn head(&mut self, name: &str) {
        if !file::name_fits(name) {
            self.fail("a heading is too long", name);
        }
        for program in [&mut self.answers, &mut self.carved, &mut self.walked] {
            program.head(name);
        }
    }

    fn work(&mut self, part: Worked) {
        match part {
            Worked::Heading(name) => self.head(&name),
            Worked::Case { case, .. } if !records(case.call) => {}
            Worked::Case { name, case } => {
                let name = with_line(&name, &case);
                if !file::fits(&name, &case) {
                    self.fail("a worked case is too long", &name);
                }
                self.take(&name, &case);
            }
        }
    }

    fn write(&self, folder: &Path, seed: u64) -> io::Result<()> {
        for (name, program) in [("answers", &self.answers), ("carved", &self.carved), ("walked", &self.walked)] {
            program.write(&folder.join(name))?;
            println!("{name}: {}, seed {seed}", program.summary());
        }
        Ok(())
    }
}

/// Whether the answers of a call are recorded. The reading of statements by the format is held against the rules in a run alone, so that
/// what is stored stays as it was before that call.
pub fn records(call: u8) -> bool {
    call != COLUMN_HINTS
}

fn walks(case: &Case) -> bool {
    matches!(case.call, LEAVES | RECOVER | GAPS)
}

/// Whether the programs have room and time for a case without a name.
pub fn has_room(case: &Case) -> bool {
    file::fits("", case) && !(case.call == BLOCK && case.slices[0].len() > LARGEST_REBUILT)
}

/// The name of a worked case, with its line for a reader who wants to try it.
fn with_line(name: &str, case: &Case) -> String {
    let line = text::line(case);
    if line.len() > LONGEST_LINE {
        return name.to_string();
    }
    format!("{name} [{line}]")
}

/// Writes the files of each program to a folder of its own; false where the Rust and the rules differ, or a worked case does not go in.
pub fn record(folder: &str, seed: u64) -> io::Result<bool> {
    let mut recorder = Recorder {
        answers: Program::default(),
        carved: Program::default(),
        walked: Program::default(),
        limits: Limits::of_the_rules(),
        kinds: HashMap::new(),
        taken: HashSet::new(),
        keep_all: true,
        fails: Vec::new(),
    };
    worked::all().into_iter().for_each(|part| recorder.work(part));
    recorder.head(UNNAMED);
    for case in panics::list() {
        recorder.put(case);
    }
    regions::bench_cases(&mut recorder);
    telling::all(&mut recorder);
    limits::to_be_recorded(&mut recorder);
    noticing::one_of_each(&mut recorder, &has_room);
    recorder.keep_all = false;
    cases::all(&mut recorder, &Plan { seed, random: 200_000, large: false, long: false });
    recorder.fails.iter().for_each(|why| println!("{why}"));
    if recorder.fails.is_empty() {
        recorder.write(Path::new(folder), seed)?;
    }
    Ok(recorder.fails.is_empty())
}
