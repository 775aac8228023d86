//! A worked case of each call: its name, then what it is lent, in the order of the C interface. Lists of rows and entries are given
//! as room for so many rows.

use super::Worked;
use crate::calls::*;
use crate::case::Case;
use crate::rules::limits::{WORDS_PER_ENTRY, WORDS_PER_ROW};

/// The ways in which headers are rebuilt, by their codes.
pub use crate::rules::limits::{EXACT, NO_GUESSES, ONE_BYTE};

/// The hint codes.
pub const INTEGER: u8 = 0;
pub const REAL: u8 = 1;
pub const TEXT: u8 = 2;
pub const BLOB: u8 = 3;
pub const NULL: u8 = 4;
pub const ANY: u8 = 5;

/// The row 42, "hipik", of nine bytes.
pub const HIPIK: &str = "03 01 17 2a 68 69 70 69 6b";

/// The last base that is taken.
pub const FARTHEST: u64 = 1 << 48;

/// A slice as it is, or written in hexadecimal, with blanks between its parts.
pub trait Lent {
    fn lent(&self) -> Vec<u8>;
}

impl Lent for &str {
    fn lent(&self) -> Vec<u8> {
        let digits: Vec<u32> = self.chars().filter_map(|c| c.to_digit(16)).collect();
        digits.chunks_exact(2).map(|pair| (16 * pair[0] + pair[1]) as u8).collect()
    }
}

impl Lent for Vec<u8> {
    fn lent(&self) -> Vec<u8> {
        self.clone()
    }
}

impl Lent for &Vec<u8> {
    fn lent(&self) -> Vec<u8> {
        self.to_vec()
    }
}

/// A byte so many times.
pub fn times(byte: u8, count: usize) -> Vec<u8> {
    vec![byte; count]
}

pub fn joined(parts: &[&dyn Lent]) -> Vec<u8> {
    parts.iter().flat_map(|part| part.lent()).collect()
}

pub fn heading(words: &str) -> Worked {
    Worked::Heading(words.into())
}

fn made(name: impl Into<String>, case: Case) -> Worked {
    Worked::Case { name: name.into(), case }
}

/// The same case with other lists.
pub fn with_lists(mut worked: Worked, lists: &[usize]) -> Worked {
    if let Worked::Case { case, .. } = &mut worked {
        case.lists = lists.to_vec();
    }
    worked
}

/// The cells of two lists that have room for so many rows of so many columns.
fn room(rows: usize, columns: usize) -> [usize; 2] {
    [WORDS_PER_ROW * rows, WORDS_PER_ENTRY * columns * rows]
}

pub fn varint(name: impl Into<String>, bytes: impl Lent, offset: u64) -> Worked {
    made(name, Case::new(READ_VARINT, &[offset], &[&bytes.lent()], &[]))
}

pub fn body(name: impl Into<String>, kind: u64) -> Worked {
    made(name, Case::new(BODY_LENGTH, &[kind], &[], &[]))
}

pub fn decode(name: impl Into<String>, kind: u64, bytes: impl Lent, offset: u64) -> Worked {
    made(name, Case::new(DECODE, &[kind, offset], &[&bytes.lent()], &[]))
}

pub fn read(name: impl Into<String>, entry: [u64; 4], bytes: impl Lent) -> Worked {
    made(name, Case::new(READ_ENTRY, &entry, &[&bytes.lent()], &[]))
}

pub fn view(name: impl Into<String>, entry: [u64; 4], bytes: impl Lent) -> Worked {
    made(name, Case::new(VIEW_ENTRY, &entry, &[&bytes.lent()], &[]))
}

pub fn suits(name: impl Into<String>, hint: u8, kind: u64) -> Worked {
    made(name, Case::new(COMPATIBLE, &[u64::from(hint), kind], &[], &[]))
}

fn of_a_region(call: u8, region: impl Lent, hints: impl Lent, base: u64, offset: u64, rows: usize) -> Case {
    let hints = hints.lent();
    Case::new(call, &[base, offset], &[&region.lent(), &hints], &room(rows, hints.len()))
}

pub fn attempt(
    name: impl Into<String>,
    region: impl Lent,
    hints: impl Lent,
    base: u64,
    offset: u64,
    rows: usize,
) -> Worked {
    made(name, of_a_region(ATTEMPT, region, hints, base, offset, rows))
}

pub fn scan(
    name: impl Into<String>,
    region: impl Lent,
    hints: impl Lent,
    base: u64,
    start: u64,
    rows: usize,
) -> Worked {
    made(name, of_a_region(SCAN, region, hints, base, start, rows))
}

pub fn statement(name: impl Into<String>, text: impl AsRef<[u8]>, hints: usize) -> Worked {
    made(name, Case::new(STATEMENT, &[], &[text.as_ref()], &[hints]))
}

/// The same by the format.
pub fn columns(name: impl Into<String>, text: impl AsRef<[u8]>, hints: usize) -> Worked {
    made(name, Case::new(COLUMN_HINTS, &[], &[text.as_ref()], &[hints]))
}

pub fn search(name: impl Into<String>, haystack: impl Lent, pattern: impl Lent, places: usize) -> Worked {
    made(name, Case::new(SEARCH, &[], &[&haystack.lent(), &pattern.lent()], &[places]))
}

pub fn page_data(name: impl Into<String>, db: impl Lent, size: u64, page: u64) -> Worked {
    made(name, Case::new(PAGE_DATA, &[size, page], &[&db.lent()], &[]))
}

pub fn leaves(name: impl Into<String>, db: impl Lent, size: u64, root: u64, lists: [usize; 3]) -> Worked {
    made(name, Case::new(LEAVES, &[size, root], &[&db.lent()], &lists))
}

/// Tables as they are lent.
pub struct Tables {
    pub roots: Vec<u64>,
    pub counts: Vec<u64>,
    pub hints: Vec<u8>,
}

pub fn tables(roots: &[u64], counts: &[u64], hints: impl Lent) -> Tables {
    Tables { roots: roots.to_vec(), counts: counts.to_vec(), hints: hints.lent() }
}

/// How long flags and stack are, and for how many rows there is room.
#[derive(Clone, Copy)]
pub struct Space {
    pub flags: usize,
    pub stack: usize,
    pub rows: usize,
}

fn of_tables(call: u8, numbers: &[u64], db: impl Lent, tables: &Tables, space: Space) -> Case {
    let widest = tables.counts.iter().max().map_or(0, |&count| count as usize);
    let [rows, entries] = room(space.rows, widest);
    let case = Case::new(call, numbers, &[&db.lent(), &tables.hints], &[space.flags, space.stack, rows, entries]);
    case.with_words(&[&tables.roots, &tables.counts])
}

pub fn recover(name: impl Into<String>, db: impl Lent, size: u64, tables: &Tables, space: Space) -> Worked {
    made(name, of_tables(RECOVER, &[size], db, tables, space))
}

pub fn free_space(
    name: impl Into<String>,
    code: u64,
    db: impl Lent,
    size: u64,
    tables: &Tables,
    space: Space,
) -> Worked {
    made(name, of_tables(GAPS, &[code, size], db, tables, space))
}

fn of_a_page(call: u8, numbers: &[u64], page: impl Lent, hints: impl Lent, rows: usize) -> Case {
    let hints = hints.lent();
    Case::new(call, numbers, &[&page.lent(), &hints], &room(rows, hints.len()))
}

pub fn recover_page(
    name: impl Into<String>,
    db: impl Lent,
    size: u64,
    page: u64,
    hints: impl Lent,
    rows: usize,
) -> Worked {
    made(name, of_a_page(RECOVER_PAGE, &[size, page], db, hints, rows))
}

pub fn recover_slice(
    name: impl Into<String>,
    page: impl Lent,
    header: u64,
    base: u64,
    hints: impl Lent,
    rows: usize,
) -> Worked {
    made(name, of_a_page(RECOVER_SLICE, &[header, base], page, hints, rows))
}

/// Of a page of a database: its size and number.
pub fn gap_page(
    name: impl Into<String>,
    code: u64,
    db: impl Lent,
    [size, page]: [u64; 2],
    hints: impl Lent,
    rows: usize,
) -> Worked {
    made(name, of_a_page(GAP_PAGE, &[code, size, page], db, hints, rows))
}

/// Of a page slice: its header's place and its base.
pub fn gap_slice(
    name: impl Into<String>,
    code: u64,
    page: impl Lent,
    [header, base]: [u64; 2],
    hints: impl Lent,
    rows: usize,
) -> Worked {
    made(name, of_a_page(GAP_SLICE, &[code, header, base], page, hints, rows))
}

pub fn block(
    name: impl Into<String>,
    code: u64,
    payload: impl Lent,
    base: u64,
    hints: impl Lent,
    rows: usize,
) -> Worked {
    made(name, of_a_page(BLOCK, &[code, base], payload, hints, rows))
}

pub fn modes(name: impl Into<String>, block: impl Lent, base: u64, columns: u64, rows: usize) -> Worked {
    let lists = room(rows, columns as usize);
    made(name, Case::new(MODES, &[base, columns], &[&block.lent()], &lists))
}

pub fn learn(name: impl Into<String>, bytes: impl Lent, entries: &[[u64; 4]], width: u64, types: usize) -> Worked {
    let case = Case::new(LEARN, &[width], &[&bytes.lent()], &[types]);
    made(name, case.with_words(&[&entries.concat()]))
}

pub fn unallocated(name: impl Into<String>, region: impl Lent, types: &[u64], base: u64, rows: usize) -> Worked {
    let case = Case::new(UNALLOC, &[base], &[&region.lent()], &room(rows, types.len()));
    made(name, case.with_words(&[types]))
}
