//! Section 11, 11.6 to 11.13: rebuilt headers, and the rows of a page.

use super::making::*;
use super::tablet::{one_leaf, tablet, SIZE};
use super::Worked;
use crate::cases::{bytes, records};
use crate::rules::limits::WORDS_PER_ROW;

const MODES: [(&str, u64); 3] = [("no guesses", NO_GUESSES), ("one-byte", ONE_BYTE), ("exact", EXACT)];

pub fn all() -> Vec<Worked> {
    [one_byte(), pages(), exact(), padded(), long_rows(), counts(), codes(), guesses()].into_iter().flatten().collect()
}

fn one_byte() -> Vec<Worked> {
    let lent = |name: &str, payload: &str, hints: &str| block(name, ONE_BYTE, payload, 0, hints, 3);
    vec![
        heading("11.6 Headers rebuilt in the one-byte mode"),
        lent("one column: type 1 and its body", "01 05 07", "00"),
        lent("a row at each of three bytes", "08 09 08", "00"),
        lent("a row at the last byte", "0a 08", "00"),
        lent("two columns, one byte: none", "08", "0000"),
        lent("where a cell's record starts, at 2, it is left out", "02 07 02 08", "00"),
    ]
}

/// A gap with a row, and a block at 12 with a cell.
const GAP_AND_CELL: &str = "0d 000c 0000 000c 00 0208 0000 0000 0008 02 07 0208";

/// The second page of a database.
fn second(page: impl Lent) -> Vec<u8> {
    let page = page.lent();
    joined(&[&times(0, 512), &page, &times(0, 512 - page.len())])
}

fn pages() -> Vec<Worked> {
    let lent = |name: &str, page: &str| gap_slice(name, ONE_BYTE, page, [0, 0], "00", 4);
    vec![
        heading("11.7, 11.8 The rows of a page: of its gap, of cells, of rebuilt headers"),
        lent("a gap, and a block with a cell", GAP_AND_CELL),
        gap_page("the same as page 2", ONE_BYTE, second(GAP_AND_CELL), [SIZE, 2], "00", 4),
        lent("the type 0x05", "05 0000 0000 000c 00 0208 0000"),
        lent("a page of 8 bytes: a block in its header", "0d 0001 0006 0208 00"),
        lent("a page of 7 bytes", "0d 0001 0006 0208"),
        gap_slice("a header at 2^64 - 1", ONE_BYTE, GAP_AND_CELL, [u64::MAX, 0], "00", 1),
    ]
}

fn exact() -> Vec<Worked> {
    let lent = |name: &str, payload: &str, hints: &str| block(name, EXACT, payload, 0, hints, 3);
    vec![
        heading("11.9 Headers rebuilt in the exact mode"),
        lent("one column: type 1 and its body", "01 05 07", "00"),
        lent("a type that runs off the payload", "01 80", "0002"),
        block("types of 510 bytes", EXACT, times(8, 510), 0, times(ANY, 510), 1),
        block("types of 511 bytes", EXACT, joined(&[&times(8, 509), &"8008"]), 0, times(ANY, 510), 1),
    ]
}

/// A block whose bytes are the types of an integer and a text of five bytes, the second padded to two bytes, and their bodies.
const PADDED: &str = "01 8017 2a 68 69 70 69 6b";

fn padded() -> Vec<Worked> {
    let table = tables(&[1], &[2], "0002");
    let space = Space { flags: 1, stack: 1, rows: 1 };
    let mut all = vec![heading("11.9, 11.6, 11.10 A type padded to two bytes, by the number of the mode")];
    for (mode, code) in MODES.into_iter().chain([("code 3", 3)]) {
        let db = one_leaf(PADDED);
        all.push(gap_slice(format!("a slice, {mode}"), code, &db, [100, 0], "0002", 1));
        all.push(gap_page(format!("page 1, {mode}"), code, &db, [SIZE, 1], "0002", 1));
        all.push(free_space(format!("the table of root 1, {mode}"), code, &db, SIZE, &table, space));
    }
    all
}

/// Zeros with these bytes at these places.
fn payload(length: usize, parts: &[(usize, &str)]) -> Vec<u8> {
    let mut payload = times(0, length);
    for (at, part) in parts {
        let part = part.lent();
        payload[*at..at + part.len()].copy_from_slice(&part);
    }
    payload
}

/// A row at 0 that is a byte too long, and at 1, where its text has a NULL behind it, one that is just not. A cell with the row id 7 has
/// a text to the payload's end, so that no cell is looked for behind it.
fn long_rows() -> Vec<Worked> {
    let two = payload(65_536, &[(0, "01 888003"), (5, "83ff77 07 05"), (11, "87ff71")]);
    let many = payload(65_535, &[(0, "01"), (126, "87fe07"), (400, "83fc6b 07 8103"), (532, "87f75d")]);
    vec![
        heading("11.9, 4.6 Rows of the largest size in the exact mode, and one more"),
        block("2 columns, 65536 and 65535 bytes", EXACT, two, 0, "0505", 2),
        block("127 columns, 65535 and 65534 bytes", EXACT, many, 0, times(ANY, 127), 2),
    ]
}

/// So many columns, and as many zeros, each the type of a NULL.
fn nulls(name: &str, code: u64, columns: usize) -> Worked {
    with_lists(block(name, code, times(0, columns), 0, times(ANY, columns), 1), &[WORDS_PER_ROW, 2044])
}

/// A cell with the row id 7 and so many columns, each the integer 0.
fn cell(name: &str, columns: usize) -> Worked {
    let record = records::header(&vec![(8, 1); columns], 1);
    let cell = joined(&[&bytes::varint(record.len() as u64, 2), &"07", &record]);
    with_lists(block(name, NO_GUESSES, cell, 0, times(INTEGER, columns), 1), &[WORDS_PER_ROW, 2044])
}

fn counts() -> Vec<Worked> {
    vec![
        heading("11.10 Counts of columns by the mode"),
        cell("127 columns, no guesses", 127),
        cell("510 columns, no guesses", 510),
        cell("511 columns, no guesses", 511),
        nulls("126 columns, one-byte", ONE_BYTE, 126),
        nulls("127 columns, one-byte", ONE_BYTE, 127),
        nulls("126 columns, exact", EXACT, 126),
        nulls("127 columns, exact", EXACT, 127),
        nulls("510 columns, exact", EXACT, 510),
        nulls("511 columns, exact", EXACT, 511),
    ]
}

fn codes() -> Vec<Worked> {
    let wide = tables(&[6, 6], &[3, 127], times(ANY, 130));
    let lent = |name: &str, code| free_space(name, code, tablet(), SIZE, &wide, Space { flags: 6, stack: 7, rows: 2 });
    vec![
        heading("11.10 Numbers that name no mode"),
        nulls("code 3, 1 column", 3, 1),
        nulls("code 2^64 - 1, 1 column", u64::MAX, 1),
        nulls("code 3, no column", 3, 0),
        nulls("code 3, 511 columns", 3, 511),
        heading("11.10 A table of 3 columns and one of 127, of the tablet's page 6"),
        lent("no guesses", NO_GUESSES),
        lent("one-byte", ONE_BYTE),
        lent("exact", EXACT),
        lent("code 3", 3),
    ]
}

/// A cell with the row id 7, and behind it the type of a text of one byte, padded to two bytes, and its body.
const CELL_AND_TYPE: &str = "03 07 020f61 800f62";

fn guesses() -> Vec<Worked> {
    let page = joined(&[&"0d 000c 0000 000c 00 020d 0000 0000 000c", &CELL_AND_TYPE]);
    let db = second(&page);
    let (table, space) = (tables(&[2], &[1], "02"), Space { flags: 2, stack: 1, rows: 6 });
    let mut all =
        vec![heading("11.13 With guesses and without: a cell, a type behind it, and a row in the gap of their page")];
    all.extend(MODES.map(|(mode, code)| block(format!("the payload, {mode}"), code, CELL_AND_TYPE, 0, "02", 5)));
    all.extend(MODES.map(|(mode, code)| gap_slice(format!("a slice, {mode}"), code, &page, [0, 0], "02", 6)));
    all.extend(MODES.map(|(mode, code)| gap_page(format!("page 2, {mode}"), code, &db, [SIZE, 2], "02", 6)));
    let walk = |(mode, code)| free_space(format!("the table of root 2, {mode}"), code, &db, SIZE, &table, space);
    all.extend(MODES.map(walk));
    all
}
