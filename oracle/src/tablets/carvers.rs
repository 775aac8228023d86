//! The calls that look for rows, on real pages.

use super::padding::{cells, Cell};
use super::rows::{of_answer, Lent, Row};
use super::{Leaf, Way};
use crate::calls::scan::entries;
use crate::calls::{
    self, ATTEMPT, BLOCK, GAPS, GAP_PAGE, GAP_SLICE, LEARN, MODES, RECOVER, RECOVER_PAGE, RECOVER_SLICE, SCAN, UNALLOC,
};
use crate::case::{Answer, Case};
use crate::cases::databases::LEAF;
use crate::cases::gaps::WAYS;
use crate::cases::regions::lists;
use crate::random::Random;
use crate::rules::attempt::attempt;
use crate::rules::limits::{Limits, EXACT, NO_GUESSES, ONE_BYTE, WORDS_PER_ENTRY, WORDS_PER_ROW};
use crate::rules::page::{chain, number};
use crate::runner::{Runner, Sink};

/// Of the one table; page 1 holds the schema.
const ROOT: u64 = 2;
/// Deeper than any tree here, and wider than its pages.
const STACK: usize = 20_000;
/// More than any database here has, for counting them.
const MANY_ROWS: usize = 100_000;

/// A database, or a log.
pub struct File<'a> {
    pub bytes: &'a [u8],
    pub pages: Vec<Leaf<'a>>,
    pub size: usize,
    pub is_log: bool,
}

impl File<'_> {
    pub fn leaves(&self) -> impl Iterator<Item = &Leaf<'_>> {
        self.pages.iter().filter(|page| page.bytes[page.header] == LEAF)
    }
}

/// What a way finds in a file; nothing where it refuses.
pub fn rows(runner: &mut Runner, lent: &Lent, file: &File, way: Way) -> Option<Vec<Row>> {
    let carver = match way {
        Way::Freed => FREED_BLOCKS,
        Way::NoGuesses => Carver { way: Some(NO_GUESSES), ..ONE_BYTE_GAPS },
        Way::OneByte => ONE_BYTE_GAPS,
        Way::Exact => Carver { way: Some(EXACT), ..ONE_BYTE_GAPS },
        Way::Scan => return scanned(runner, lent, file),
        Way::Offsets => return Some(tried(runner, lent, file)),
        Way::Gap => return gaps(runner, lent, file),
        Way::Modes => return modes(runner, lent, file),
        Way::Learned => return learned(runner, lent, file),
        Way::Together => return None,
    };
    if file.is_log {
        return leaves(runner, lent, file, &carver);
    }
    table(runner, lent, file, &carver)
}

/// Puts a case with room for just the rows that it has, and a damaged copy; has these rows.
fn carved(runner: &mut Runner, lent: &Lent, case: Case, width: usize, at: usize) -> Option<Vec<Row>> {
    let (case, answer) = fitted(runner, case, width);
    let rows = (answer.number == 0).then(|| of_answer(lent, &case.slices[0], at, &answer, width));
    let seed = case.slices[0].iter().fold(case.numbers[0], |seed, &b| seed.wrapping_mul(31) + u64::from(b));
    put_damaged(runner, &case, seed);
    runner.put(case);
    rows
}

/// The same page with a few bytes changed: nothing is counted, but all sides must agree on it too.
fn put_damaged(runner: &mut Runner, case: &Case, seed: u64) {
    let mut random = Random::new(seed);
    let mut damaged = case.clone();
    if damaged.slices[0].is_empty() {
        return;
    }
    for _ in 0..1 + random.below(40) {
        let at = random.below(damaged.slices[0].len());
        damaged.slices[0][at] ^= 1 << random.below(8);
    }
    runner.put(damaged);
}

/// The same case with room for just the rows that it has, and its answer.
fn fitted(runner: &Runner, mut case: Case, width: usize) -> (Case, Answer) {
    let sheet = case.lists.len() - 2;
    case.lists[sheet..].copy_from_slice(&lists(MANY_ROWS, width));
    let answer = (calls::of(&case).answer)(&runner.limits, &case);
    case.lists[sheet..].copy_from_slice(&lists(answer.lists[sheet].len() / WORDS_PER_ROW, width));
    (case, answer)
}

/// By the scan of each page.
fn scanned(runner: &mut Runner, lent: &Lent, file: &File) -> Option<Vec<Row>> {
    let mut rows = Vec::new();
    let width = lent.hints.len();
    for page in &file.pages {
        let case = Case::new(SCAN, &[page.at as u64, 0], &[page.bytes, &lent.hints], &[0, 0]);
        rows.extend(carved(runner, lent, case, width, page.at)?);
    }
    Some(rows)
}

/// What the scan steps over, too. Each row is put as the case of its own bytes.
fn tried(runner: &mut Runner, lent: &Lent, file: &File) -> Vec<Row> {
    let mut rows = Vec::new();
    let width = lent.hints.len();
    for page in &file.pages {
        for o in 0..page.bytes.len() {
            let Some(found) = attempt(&runner.limits, page.bytes, &lent.hints, o).found else { continue };
            let own = &page.bytes[o..][..found.consumed as usize];
            let case = Case::new(ATTEMPT, &[(page.at + o) as u64, 0], &[own, &lent.hints], &lists(1, width));
            let answer = (calls::of(&case).answer)(&runner.limits, &case);
            rows.extend(of_answer(lent, own, page.at + o, &answer, width));
            runner.put(case);
        }
    }
    rows
}

/// A carver of pages: its calls over tables, on a page by its number and on a slice, and its way of rebuilding headers.
struct Carver {
    of_tables: u8,
    of_page: u8,
    of_slice: u8,
    way: Option<u64>,
}

impl Carver {
    fn numbers(&self, others: &[u64]) -> Vec<u64> {
        self.way.iter().chain(others).copied().collect()
    }
}

const FREED_BLOCKS: Carver = Carver { of_tables: RECOVER, of_page: RECOVER_PAGE, of_slice: RECOVER_SLICE, way: None };
const ONE_BYTE_GAPS: Carver = Carver { of_tables: GAPS, of_page: GAP_PAGE, of_slice: GAP_SLICE, way: Some(ONE_BYTE) };

/// What a carver of pages finds on all leaves of the table. Each page is given by its number, too, behind the first.
fn table(runner: &mut Runner, lent: &Lent, file: &File, carver: &Carver) -> Option<Vec<Row>> {
    let (db, width, size) = (file.bytes, lent.hints.len(), file.size as u64);
    let lists = [file.pages.len(), STACK, 0, 0];
    let case = Case::new(carver.of_tables, &carver.numbers(&[size]), &[db, &lent.hints], &lists);
    let case = case.with_words(&[&[ROOT], &[width as u64]]);
    let rows = carved(runner, lent, case, width, 0);
    let (first, others) = db.split_at(file.size);
    for page in others.chunks_exact(file.size) {
        let two = [first, page].concat();
        let case = Case::new(carver.of_page, &carver.numbers(&[size, 2]), &[&two, &lent.hints], &[0, 0]);
        let (case, _) = fitted(runner, case, width);
        runner.put(case);
    }
    rows
}

/// What it finds on each leaf by itself.
fn leaves(runner: &mut Runner, lent: &Lent, file: &File, carver: &Carver) -> Option<Vec<Row>> {
    let mut rows = Vec::new();
    let width = lent.hints.len();
    for page in file.leaves() {
        let numbers = carver.numbers(&[page.header as u64, page.at as u64]);
        let case = Case::new(carver.of_slice, &numbers, &[page.bytes, &lent.hints], &[0, 0]);
        rows.extend(carved(runner, lent, case, width, page.at)?);
    }
    Some(rows)
}

/// What exact rebuilding finds in the gap of each leaf, which is lent as if it were a freed block.
fn gaps(runner: &mut Runner, lent: &Lent, file: &File) -> Option<Vec<Row>> {
    let mut rows = Vec::new();
    let width = lent.hints.len();
    for page in file.leaves() {
        let (start, gap) = gap(page);
        // Zeros alone would be rows of NULLs, one at each byte.
        if gap.iter().all(|&b| b == 0) {
            continue;
        }
        let at = page.at + start;
        let case = Case::new(BLOCK, &[EXACT, at as u64], &[gap, &lent.hints], &[0, 0]);
        rows.extend(carved(runner, lent, case, width, at)?);
    }
    Some(rows)
}

/// The bytes of a leaf between its cell pointers and its content.
fn gap<'a>(page: &Leaf<'a>) -> (usize, &'a [u8]) {
    let word = |at: usize| number(page.bytes, page.header + at, 2).unwrap_or(0);
    let start = page.header + Limits::of_the_rules().leaf_header + 2 * word(3);
    // A content start of 65,536 does not fit in two bytes and is 0.
    let end = if word(5) == 0 { page.bytes.len() } else { word(5) };
    (start, page.bytes.get(start..end).unwrap_or(&[]))
}

/// The three modes of each free block of a leaf, its link with it; and its cells, which the gap's carver has counted.
fn modes(runner: &mut Runner, lent: &Lent, file: &File) -> Option<Vec<Row>> {
    let mut rows = Vec::new();
    let width = lent.hints.len();
    for page in file.leaves() {
        for block in chain(&Limits::of_the_rules(), page.bytes, page.header) {
            let (at, bytes) = (page.at + block.start, &page.bytes[block.start..][..block.size]);
            let case = Case::new(MODES, &[at as u64, width as u64], &[bytes], &[0, 0]);
            rows.extend(carved(runner, lent, case, width, at)?);
            for way in WAYS {
                let case = Case::new(BLOCK, &[way, at as u64 + 4], &[&bytes[4..], &lent.hints], &[0, 0]);
                let (case, _) = fitted(runner, case, width);
                put_damaged(runner, &case, at as u64);
                runner.put(case);
            }
        }
    }
    Some(rows)
}

/// The types of the rows that the leaves point at.
pub fn learn(runner: &mut Runner, lent: &Lent, file: &File) -> Vec<u64> {
    let (width, most) = (lent.hints.len(), runner.limits.learned_rows);
    let entries: Vec<u64> =
        file.leaves().flat_map(|page| live(lent, page)).take(WORDS_PER_ENTRY * width * most).collect();
    let case = Case::new(LEARN, &[width as u64], &[file.bytes], &[width]).with_words(&[&entries]);
    let types = (calls::of(&case).answer)(&runner.limits, &case).lists[0].clone();
    put_damaged(runner, &case, file.bytes.len() as u64);
    runner.put(case);
    types
}

/// The entries of the rows that a leaf's cell pointers lead to, in the database.
fn live(lent: &Lent, page: &Leaf) -> Vec<u64> {
    let row = |cell: Cell| {
        let payload = &page.bytes[cell.record..cell.end];
        let found = attempt(&Limits::of_the_rules(), payload, &lent.hints, 0).found?;
        Some(entries((page.at + cell.record) as u64, &found))
    };
    cells(page).filter_map(row).flatten().collect()
}

/// What learned types find on each page; nothing where nothing was learned.
fn learned(runner: &mut Runner, lent: &Lent, file: &File) -> Option<Vec<Row>> {
    let mut rows = Vec::new();
    let width = lent.types.len();
    for page in file.pages.iter().filter(|_| width > 0) {
        let case = Case::new(UNALLOC, &[page.at as u64], &[page.bytes], &[0, 0]).with_words(&[&lent.types]);
        rows.extend(carved(runner, lent, case, width, page.at)?);
    }
    Some(rows)
}
