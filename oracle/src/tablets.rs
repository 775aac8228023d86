//! Real databases: what comes back of rows that were deleted. The script `tablets` makes the databases and says, for
//! each, which rows were deleted and which were not.

mod carvers;
pub mod padding;
mod rows;
mod tables;

use self::carvers::File;
use self::padding::PutIn;
use self::rows::{Back, Lent, Lines, Row};
use crate::calls;
use crate::cases::databases::FIRST_HEADER;
use crate::cases::statements::both;
use crate::runner::{Runner, Sink};
use std::collections::HashMap;
use std::path::Path;
use std::{fs, io};

const NULL_HINT: u8 = 4;
const REAL_HINT: u8 = 1;
const ANY_HINT: u8 = 5;

/// Which hints are lent.
#[derive(Clone, Copy, Debug, PartialEq, Eq, Hash)]
pub enum List {
    All,
    FromSecond,
    AnyForReal,
    NullForKey,
    BehindKey,
    /// The rows of the last two, each once.
    BothOfKey,
}

/// What looks for rows.
#[derive(Clone, Copy, Debug, PartialEq, Eq, Hash)]
pub enum Way {
    Scan,
    Offsets,
    Freed,
    NoGuesses,
    OneByte,
    Exact,
    /// The gap of each leaf, rebuilt as a freed block is.
    Gap,
    Modes,
    Learned,
    /// Free space in the exact mode and every offset, each row once.
    Together,
}

const WAYS: [Way; 8] =
    [Way::Scan, Way::Offsets, Way::Freed, Way::NoGuesses, Way::OneByte, Way::Exact, Way::Modes, Way::Learned];
/// For rows that went one behind the other, and so came to lie in the gap.
const WAYS_AND_GAP: [Way; 9] =
    [Way::Scan, Way::Offsets, Way::Freed, Way::NoGuesses, Way::OneByte, Way::Exact, Way::Modes, Way::Learned, Way::Gap];
/// The ways that look into the free space of a table's leaves.
const OF_FREE_SPACE: [Way; 5] = [Way::Freed, Way::NoGuesses, Way::OneByte, Way::Exact, Way::Gap];

/// A database by its name, which says all but the page size, and what was measured on it.
#[derive(Clone, Debug, PartialEq, Eq, Hash)]
pub struct Of {
    kind: String,
    page: usize,
    list: List,
    way: Way,
}

#[derive(Default)]
pub struct Measured {
    back: HashMap<Of, Back>,
    /// How many rows were deleted, by kind.
    deleted: HashMap<String, usize>,
}

struct Tablet {
    kind: String,
    page: usize,
    hints: Vec<u8>,
    deleted: Vec<String>,
    live: Vec<String>,
}

/// A page, where it stands in its file, and where its b-tree header stands in it.
pub struct Leaf<'a> {
    pub at: usize,
    pub header: usize,
    pub bytes: &'a [u8],
}

pub fn run(runner: &mut Runner, folder: &str) -> io::Result<bool> {
    let mut names: Vec<String> = fs::read_dir(folder)?
        .filter_map(|e| Some(e.ok()?.file_name().to_string_lossy().strip_suffix(".db")?.to_string()))
        .collect();
    names.sort();
    let missing = runner.missing();
    if !missing.is_empty() {
        println!("WITH THE RUST ALONE, since the archive does not have it: {}\n", missing.join(", "));
    }
    let mut measured = Measured::default();
    for name in &names {
        measure(runner, folder, name, &mut measured)?;
    }
    tables::print(&measured);
    runner.finish();
    if let Some(difference) = &runner.difference {
        difference.print();
        return Ok(false);
    }
    println!(
        "\n{} databases. The Rust, the rules and our side agree on all {} cases:",
        names.len(),
        runner.tally.total()
    );
    println!("the statements, every page and every frame of a log, a damaged copy of each, and rows at every offset; the tables'");
    println!("leaves, each free block, the rows that are learned from, and a damaged copy of each of these.");
    runner.tally.print_in_parts();
    runner.tally.print_with_guesses();
    padded(runner, folder, &names)
}

/// Rows as sqlite3 wrote them, and rows in which a number is padded then.
fn padded(runner: &mut Runner, folder: &str, names: &[String]) -> io::Result<bool> {
    let mut put_in = PutIn::default();
    for name in names {
        let tablet = Tablet::read(runner, folder, name)?;
        let db = fs::read(Path::new(folder).join(format!("{name}.db")))?;
        let file = File { bytes: &db, pages: pages(&db, 0, 0, tablet.page), size: tablet.page, is_log: false };
        if let Some((list, hints, _)) = tablet.lists().into_iter().next() {
            put_in.of_file(runner, &Lent::new(tablet.columns(list), hints), &file);
        }
    }
    let written = padding::as_written(runner, &Path::new(folder).join("many"))?;
    if let Some(difference) = &runner.difference {
        difference.print();
        return Ok(false);
    }
    let PutIn { calls, wrong } = put_in;
    wrong.iter().for_each(|case| println!("NOT MARKED AS IT SHOULD BE: {case}"));
    if let Some(rows) = written {
        println!("\nOf {rows} more rows, each read at its cell as sqlite3 wrote it, none is marked as padded. In {calls} calls on");
        println!(
            "pages of the databases above a number of a header was padded: the row is marked, and as it was it is not."
        );
    }
    Ok(written.is_some() && calls > 0 && wrong.is_empty())
}

/// The database, and its log as a kind of its own.
fn measure(runner: &mut Runner, folder: &str, name: &str, measured: &mut Measured) -> io::Result<()> {
    let path = |end: &str| Path::new(folder).join(format!("{name}{end}"));
    let db = fs::read(path(".db"))?;
    let mut tablet = Tablet::read(runner, folder, name)?;
    let file = File { bytes: &db, pages: pages(&db, 0, 0, tablet.page), size: tablet.page, is_log: false };
    measure_file(runner, &tablet, &file, &file, measured);
    if let Ok(log) = fs::read(path(".db-wal")) {
        tablet.kind.push_str("-frames");
        let frames = File { bytes: &log, pages: pages(&log, 32, 24, tablet.page), size: tablet.page, is_log: true };
        measure_file(runner, &tablet, &frames, &file, measured);
    }
    Ok(())
}

/// By the format; the sides are held against each other in both readings.
fn hints_of(runner: &mut Runner, statement: &[u8]) -> Vec<u8> {
    let [as_rust, by_format] = both(statement, runner.limits.columns);
    let answer = (calls::of(&by_format).answer)(&runner.limits, &by_format);
    runner.put(as_rust);
    runner.put(by_format);
    answer.lists[0].iter().map(|&h| h as u8).collect()
}

/// Types are learned from the rows that the pages of another file point at.
fn measure_file(runner: &mut Runner, tablet: &Tablet, file: &File, learned_from: &File, measured: &mut Measured) {
    measured.deleted.insert(tablet.kind.clone(), tablet.deleted.len());
    let mut found: HashMap<(List, Way), Option<Vec<Row>>> = HashMap::new();
    for (list, hints, ways) in tablet.lists() {
        let mut lent = Lent::new(tablet.columns(list), hints);
        lent.types = carvers::learn(runner, &lent, learned_from);
        for way in ways {
            found.insert((list, *way), carvers::rows(runner, &lent, file, *way));
        }
    }
    unite(&mut found);
    for ((list, way), rows) in found {
        let of = Of { kind: tablet.kind.clone(), page: tablet.page, list, way };
        let lines = tablet.last(tablet.columns(list));
        measured.back.insert(of, Back::of(&lines, rows.as_deref(), way));
    }
}

/// What both lists of a keyed table bring, and what the two best ways do.
fn unite(found: &mut HashMap<(List, Way), Option<Vec<Row>>>) {
    let mut both = |one: (List, Way), other: (List, Way), united: (List, Way)| {
        if let (Some(Some(one)), Some(Some(other))) = (found.get(&one), found.get(&other)) {
            let rows = rows::each_once(one, other);
            found.insert(united, Some(rows));
        }
    };
    for way in OF_FREE_SPACE {
        both((List::NullForKey, way), (List::BehindKey, way), (List::BothOfKey, way));
    }
    both((List::All, Way::Exact), (List::All, Way::Offsets), (List::All, Way::Together));
    both((List::BothOfKey, Way::Exact), (List::NullForKey, Way::Offsets), (List::BothOfKey, Way::Together));
}

impl Tablet {
    fn read(runner: &mut Runner, folder: &str, name: &str) -> io::Result<Tablet> {
        let path = |end: &str| Path::new(folder).join(format!("{name}{end}"));
        let lines = |end: &str| -> io::Result<Vec<String>> {
            Ok(fs::read_to_string(path(end))?.lines().map(String::from).collect())
        };
        Ok(Tablet {
            kind: name.split_once('-').map_or(name, |(_, kind)| kind).to_string(),
            page: page_size(&fs::read(path(".db"))?),
            hints: hints_of(runner, &fs::read(path(".sql"))?),
            deleted: lines(".deleted")?,
            live: lines(".live")?,
        })
    }

    /// The lists of hints that are lent, and the ways for which they are. A key is NULL in each record, and its hint is Null.
    fn lists(&self) -> Vec<(List, Vec<u8>, &'static [Way])> {
        let all = self.hints.clone();
        let ways: &[Way] = if self.kind.ends_with("-end") { &WAYS_AND_GAP } else { &WAYS };
        if self.is_keyed() {
            let behind = all[1..].to_vec();
            return vec![(List::NullForKey, all, ways), (List::BehindKey, behind, ways)];
        }
        if self.kind.contains("whole") || self.kind.contains("hundredths") {
            let any = all.iter().map(|&hint| if hint == REAL_HINT { ANY_HINT } else { hint }).collect();
            return vec![(List::All, all, ways), (List::AnyForReal, any, ways)];
        }
        if self.kind.starts_with("plain") {
            let from_second = all[1..].to_vec();
            return vec![(List::All, all, ways), (List::FromSecond, from_second, &[Way::OneByte, Way::Exact])];
        }
        vec![(List::All, all, ways)]
    }

    fn is_keyed(&self) -> bool {
        self.hints[0] == NULL_HINT
    }

    /// How many values of a row stand in a line: the key does not.
    fn columns(&self, list: List) -> usize {
        self.hints.len() - usize::from(self.is_keyed() || list == List::FromSecond)
    }

    /// The last values of each line.
    fn last(&self, columns: usize) -> Lines {
        let cut = |line: &String| {
            let values: Vec<&str> = line.split('|').collect();
            values[values.len() - columns..].join("|")
        };
        Lines { deleted: self.deleted.iter().map(cut).collect(), live: self.live.iter().map(cut).collect() }
    }
}

/// Bytes 16 and 17 of a database; 1 stands for 65,536.
pub fn page_size(db: &[u8]) -> usize {
    match (db[16], db[17]) {
        (0, 1) => 65_536,
        (high, low) => usize::from(high) << 8 | usize::from(low),
    }
}

/// The pages, each behind `before` bytes of its own, which begin with its number.
pub fn pages(file: &[u8], head: usize, before: usize, size: usize) -> Vec<Leaf<'_>> {
    let page = |at: usize| {
        let first = if before == 0 { at == 0 } else { file[at..][..4] == [0, 0, 0, 1] };
        let bytes = file.get(at + before..at + before + size)?;
        Some(Leaf { at: at + before, header: if first { FIRST_HEADER } else { 0 }, bytes })
    };
    (head..file.len()).step_by(before + size).filter_map(page).collect()
}
