//! Section 10: freed blocks of a page.

use super::making::*;
use super::tablet::{one_leaf, SIZE};
use super::Worked;

/// The header of a leaf whose first freeblock is at 8, right behind it.
const HEADER: &str = "0d 0008 0000 0000 00";

/// A page with that header.
fn page(blocks: impl Lent) -> Vec<u8> {
    joined(&[&HEADER, &blocks])
}

pub fn all() -> Vec<Worked> {
    [chains(), ends(), starts(), rows(), forms()].into_iter().flatten().collect()
}

fn chains() -> Vec<Worked> {
    let lent = |name: &str, page: Vec<u8>| recover_slice(name, page, 0, 0, "00", 3);
    vec![
        heading("10.1 The chain of freed blocks"),
        lent("two blocks", page("000e 0006 0208 0000 0006 0209")),
        recover_slice("back to a lower place", "0d 000e 0000 0000 00 0000 0006 0208 0008 0006 0209", 0, 0, "00", 3),
        lent("two blocks that name each other", page("000e 0006 0208 0008 0006 0209")),
    ]
}

fn ends() -> Vec<Worked> {
    let lent = |name: &str, page: Vec<u8>| recover_slice(name, page, 0, 0, "00", 3);
    let header = |name: &str, page: &str| recover_slice(name, page, 0, 0, "00", 3);
    vec![
        heading("10.1 Where the chain ends"),
        header("begins with 0", "0d 0000 0000 0000 00 0000 0006 0208"),
        header("a block in the header, at 7", "0d 0007 0000 0000 0000 0006 0208"),
        lent("a size of 3", page("000e 0003 0208 0000 0006 0209")),
        lent("a block that ends a byte behind the page", page("0000 0007 0208")),
        lent("four bytes that end a byte behind the page", page("000e 0006 0208 0000 00")),
    ]
}

/// A page with a block whose row stands behind so many zeros.
fn behind(zeros: usize) -> Vec<u8> {
    let size = 4 + zeros + 2;
    page(joined(&[&vec![0, 0, 0, size as u8], &times(0, zeros), &"0208"]))
}

fn starts() -> Vec<Worked> {
    let lent = |name: &str, page: Vec<u8>| recover_slice(name, page, 0, 0, "00", 2);
    vec![
        heading("10.2 The one row of a block"),
        lent("at its byte 19", behind(19)),
        lent("at its byte 20: none", behind(20)),
        lent("two rows: the first", page("0000 0009 00 0208 0209")),
        lent("a row that is longer than the payload", page("0000 0006 0201 2a")),
    ]
}

fn rows() -> Vec<Worked> {
    vec![
        heading("10.3 Where a row stands"),
        recover_slice(
            "base 1000: the offset has it, the entries have not",
            page("0000 0008 00 0201 2a"),
            0,
            1000,
            "00",
            1,
        ),
        recover_page(
            "page 2: its place is the base",
            joined(&[&times(0, 512), &page("0000 0006 0208"), &times(0, 498)]),
            SIZE,
            2,
            "00",
            1,
        ),
        heading("10.4 The order of rows, and a page's type"),
        recover_slice("three blocks, room for 2", page("000e 0006 0208 0014 0006 0209 0000 0006 0200"), 0, 0, "00", 2),
        recover_slice("the type 0x02", "02 0008 0000 0000 00 0000 0006 0208", 0, 0, "00", 1),
    ]
}

fn forms() -> Vec<Worked> {
    let one = || page("0000 0006 0208");
    vec![
        heading("10.5 A page slice, and a page by its number"),
        recover_slice("a header at 2^64 - 1", one(), u64::MAX, 0, "00", 1),
        recover_page("2: a hint code 6, page 0", one_leaf("0208"), SIZE, 0, "06", 1),
    ]
}
