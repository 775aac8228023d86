//! Section 1: refusals and lists.

use super::making::*;
use super::tablet::one_leaf;
use super::Worked;

/// A row of one column, the integer 0, with a byte behind it.
const ROW: &str = "02 08 00";

const NO_SPACE: Space = Space { flags: 0, stack: 0, rows: 0 };

/// 1,025 tables, all of the root 1, with this hint.
fn too_many(hint: u8) -> Tables {
    Tables { roots: vec![1; 1025], counts: vec![1; 1025], hints: times(hint, 1025) }
}

pub fn all() -> Vec<Worked> {
    [refusals(), orders(), what_is_left(), empty_slices()].into_iter().flatten().collect()
}

fn refusals() -> Vec<Worked> {
    vec![
        heading("1.1 The nine refusals, each from calls that give it"),
        scan("1 ColumnCount: no hints", ROW, "", 0, 0, 1),
        block("1 ColumnCount: 127 columns in the one-byte mode", ONE_BYTE, "08", 0, times(ANY, 127), 1),
        statement("1 ColumnCount: (PRIMARY KEY (a)) gives no hint", "(PRIMARY KEY (a))", 1),
        suits("2 Malformed: a hint code 6", 6, 0),
        block("2 Malformed: no mode of rebuilding has the number 3", 3, "08", 0, "00", 1),
        recover("2 Malformed: two roots, one count", one_leaf("0208"), 512, &tables(&[1, 1], &[1], "00"), NO_SPACE),
        read("2 Malformed: an entry of state 4", [4, 0, 0, 0], "00"),
        recover("3 TooLarge: 1025 tables", one_leaf("0208"), 512, &too_many(ANY), NO_SPACE),
        scan("none: a base of 2^48", ROW, "00", FARTHEST, 0, 1),
        scan("4 BaseTooFar: a base of 2^48 + 1", ROW, "00", FARTHEST + 1, 0, 1),
        page_data("5 PageSize: 500", times(0, 1000), 500, 1),
        page_data("6 NoSuchPage: page 0", times(0, 512), 512, 0),
        statement("7 NoColumnList: no ( in CREATE TABLE t", "CREATE TABLE t", 1),
        leaves("8 WalkSpace: no flag for the page", one_leaf("0208"), 512, 1, [0, 1, 1]),
        attempt("9 NoRoom: a row, room for none", ROW, "00", 0, 0, 0),
    ]
}

fn orders() -> Vec<Worked> {
    vec![
        heading("1.1 The first check that holds decides"),
        scan("1 before 2: 511 hints of code 6", ROW, times(6, 511), 0, 0, 1),
        recover("2 before 3: 1025 tables of code 6", one_leaf("0208"), 512, &too_many(6), NO_SPACE),
        scan("2 before 4: code 6, base 2^48 + 1", ROW, "06", FARTHEST + 1, 0, 1),
        recover("3 before 5: 1025 tables, pages of 500", one_leaf("0208"), 500, &too_many(ANY), NO_SPACE),
        attempt("4 before 9: base 2^48 + 1, a row and no room", ROW, "00", FARTHEST + 1, 0, 0),
        page_data("5 before 6: pages of 500, page 0", times(0, 512), 500, 0),
        leaves("5 before 8: pages of 256, no flags", times(0, 512), 256, 1, [0, 0, 0]),
        leaves("8 before 9: a leaf, no flags and no room", one_leaf("0208"), 512, 1, [0, 1, 0]),
    ]
}

fn what_is_left() -> Vec<Worked> {
    vec![
        heading("1.2 What a refusal leaves"),
        scan("refusal 4: no cell, and place and count are 0", ROW, "00", FARTHEST + 1, 0, 1),
        scan("refusal 9: one of two rows, its place and the count", "0208 0209 00", "00", 0, 0, 1),
        scan("a whole list: the cells behind the two rows are as they were", "0208 0209 00", "00", 0, 0, 3),
    ]
}

fn empty_slices() -> Vec<Worked> {
    let space = Space { flags: 1, stack: 1, rows: 1 };
    vec![
        heading("1.4 Empty slices"),
        scan("an empty region", "", "00", 0, 0, 1),
        search("an empty haystack", "", "61", 1),
        search("an empty pattern", "61", "", 1),
        recover("no tables", one_leaf("0208"), 512, &tables(&[], &[], ""), space),
        scan("no hints are refusal 1", "", "", 0, 0, 1),
        statement("an empty statement is refusal 7", "", 1),
    ]
}
