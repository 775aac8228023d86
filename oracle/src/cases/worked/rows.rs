//! Section 5, 5.1 to 5.3: rows and columns as words, and room.

use super::making::*;
use super::padding;
use super::tablet::{one_leaf, SIZE};
use super::Worked;
use crate::rules::limits::WORDS_PER_ROW;

/// Three rows of two columns.
const THREE: &str = "03 08 09 03 09 08 03 08 08";

pub fn all() -> Vec<Worked> {
    [sources(), tables_of_rows(), padding::rows(), groups(), rooms()].into_iter().flatten().collect()
}

fn sources() -> Vec<Worked> {
    vec![
        heading("5.1 Rows of every source and mode, with and without a row id"),
        scan("source 0, a scan", HIPIK, "0003", 100, 0, 1),
        recover_slice("source 1, a freed block", "0d 0008 0000 0000 00 0000 0006 0208", 0, 100, "00", 1),
        modes("source 1, mode 1", "02 08 00", 100, 1, 1),
        modes("source 1, modes 2 and 3", "00 08 00 00 17 68 69", 100, 2, 2),
        gap_slice("source 2, a gap, percent 100", ONE_BYTE, "0d 0000 0000 000c 00 0208 0000", [0, 100], "00", 1),
        block(
            "source 2, the row id 7, percent 50, room for 1",
            ONE_BYTE,
            "09 07 03 01 17 2a 68 69 70 69 6b",
            100,
            "0003",
            1,
        ),
        block("source 2, the row id 0, room for 1", ONE_BYTE, "02 00 0208", 100, "00", 1),
        unallocated("source 3, percent 33", "04 01 17 08 2a 68 69 70 69 6b", &[1, 7, 7], 100, 1),
    ]
}

/// So many tables, of which the last alone has a root that is there.
fn last_of(tables: usize) -> Tables {
    let mut roots = vec![0; tables];
    roots[tables - 1] = 1;
    Tables { roots, counts: vec![1; tables], hints: times(ANY, tables) }
}

fn tables_of_rows() -> Vec<Worked> {
    let space = Space { flags: 1, stack: 1, rows: 2 };
    let two = tables(&[1, 1], &[1, 1], "0000");
    vec![
        heading("5.1 The table's index, four times, in the word of the mode"),
        recover("tables 0 and 1", one_leaf("0208"), SIZE, &two, space),
        recover("table 1023, the last of 1024", one_leaf("0208"), SIZE, &last_of(1024), space),
    ]
}

fn groups() -> Vec<Worked> {
    let space = Space { flags: 1, stack: 1, rows: 2 };
    vec![
        heading("5.2, 3.1 Groups of entries: what is not there has state 1, 2 or 3"),
        modes("state 1: a text of five bytes in two", "02 17 68 69", 0, 1, 1),
        modes("state 2: the first column is lost", "00 08 00 00 17 68 69 70 69 6b", 0, 2, 2),
        modes("state 3: three columns, one type", "02 08 00", 0, 3, 1),
        recover(
            "a group is as wide as the widest table",
            one_leaf("0208"),
            SIZE,
            &tables(&[1, 1], &[1, 3], "00 050505"),
            space,
        ),
    ]
}

fn rooms() -> Vec<Worked> {
    let lent = |rows: usize, entries: usize, fits: u64| {
        let name = format!("{rows} cells of rows, {entries} of entries: room for {fits}");
        with_lists(scan(name, THREE, "0000", 0, 0, 0), &[rows, entries])
    };
    vec![
        heading(&format!("5.3 Room: whole rows of {WORDS_PER_ROW} cells, and whole groups, here of 8 cells")),
        lent(2 * WORDS_PER_ROW, 16, 2),
        lent(2 * WORDS_PER_ROW - 1, 16, 1),
        lent(2 * WORDS_PER_ROW, 15, 1),
        lent(3 * WORDS_PER_ROW, 16, 2),
        lent(2 * WORDS_PER_ROW, 24, 2),
    ]
}
