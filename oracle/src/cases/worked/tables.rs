//! Section 9, 9.12 to 9.14: rows of all leaves of tables. In the tablet the table of the root 1 has an integer and a text, and that of
//! the root 6 a real, a blob and any column.

use super::making::*;
use super::tablet::{one_leaf, tablet, SIZE};
use super::Worked;

pub fn all() -> Vec<Worked> {
    [checks(), order(), freed(), free()].into_iter().flatten().collect()
}

const ONE_ROW: Space = Space { flags: 6, stack: 7, rows: 1 };

fn of_the_tablet() -> Tables {
    tables(&[1, 6], &[2, 3], "0002 010305")
}

fn checks() -> Vec<Worked> {
    let lent = |name: &str, tables: &Tables| recover(name, one_leaf("0208"), SIZE, tables, ONE_ROW);
    vec![
        heading("9.12 The checks of a call over tables"),
        lent("1: a count of 0", &tables(&[1, 1], &[1, 0], "00")),
        lent("2: a hint too many", &tables(&[1], &[1], "0000")),
        lent("2: a count without a root", &tables(&[1], &[1, 1], "0000")),
        recover("8: no flags", one_leaf("0208"), SIZE, &tables(&[1], &[1], "00"), Space { flags: 0, ..ONE_ROW }),
    ]
}

fn order() -> Vec<Worked> {
    let space = Space { flags: 6, stack: 7, rows: 4 };
    let twice = tables(&[6, 6], &[3, 3], "010305 050505");
    let full = tables(&[1, 6], &[2, 3], "0002 010305");
    vec![
        heading("9.13 Tables in their order, and what a full stack ends"),
        recover("page 6 for two tables: popped in each walk", tablet(), SIZE, &twice, space),
        recover("a stack of 1: the first table ends the call", tablet(), SIZE, &full, Space { stack: 1, ..space }),
    ]
}

fn freed() -> Vec<Worked> {
    let lent =
        |name: &str, stack, rows| recover(name, tablet(), SIZE, &of_the_tablet(), Space { flags: 6, stack, rows });
    let left_over = tables(&[1, 6], &[2, 2], "0002 010305");
    vec![
        heading("9.13, 9.14, 10.1 to 10.4 Freed blocks of two tables of the tablet, roots 1 and 6: page 3 has two with a row each, \
             page 4 one that begins in its header, page 5 one that names itself, page 6 one with a row and one with none"),
        lent("room for 5", 7, 5),
        lent("room for 4", 7, 4),
        lent("room for 3", 7, 3),
        lent("a stack of 6", 6, 3),
        recover("a hint left over", tablet(), SIZE, &left_over, ONE_ROW),
        recover_page("of page 3", tablet(), SIZE, 3, "0002", 3),
        recover_page("of page 7", tablet(), SIZE, 7, "0002", 3),
        recover_page("of page 3, pages of 500", tablet(), 500, 3, "0002", 3),
    ]
}

fn free() -> Vec<Worked> {
    let lent = |name: &str, code, stack, rows| {
        free_space(name, code, tablet(), SIZE, &of_the_tablet(), Space { flags: 6, stack, rows })
    };
    vec![
        heading("9.13, 9.14, 11.1 to 11.10 Free space of the same: the gap of page 3 has two rows, and each of its blocks a cell; \
             the first blocks of pages 4, 5 and 6 have a cell each"),
        lent("no guesses, room for 20", NO_GUESSES, 7, 20),
        lent("room for 20", ONE_BYTE, 7, 20),
        lent("room for 1", ONE_BYTE, 7, 1),
        lent("room for 6", ONE_BYTE, 7, 6),
        lent("a stack of 6", ONE_BYTE, 6, 8),
        lent("exact, room for 6", EXACT, 7, 6),
    ]
}
