//! Section 3: column entries.

use super::making::*;
use super::Worked;

/// Seven zeros, then "hipik".
const BYTES: &str = "00000000000000 68 69 70 69 6b";

pub fn all() -> Vec<Worked> {
    [states(), bad(), views()].into_iter().flatten().collect()
}

fn states() -> Vec<Worked> {
    vec![
        heading("3.1, 3.3 What entries read as: tag, bits, start, length"),
        read("state 0, type 23 at 7", [0, 23, 7, 5], BYTES),
        read("state 0, an integer has no place", [0, 1, 7, 1], BYTES),
        read("state 1, type 23 that does not fit", [1, 23, 0, 0], BYTES),
        read("state 2, a lost column", [2, 0, 0, 0], BYTES),
        read("state 3, an unused entry", [3, 0, 0, 0], BYTES),
        read("state 1 with what it has no use for", [1, 10, 99, 7], BYTES),
    ]
}

fn bad() -> Vec<Worked> {
    vec![
        heading("3.2, 3.3 Bad entries are refusal 2"),
        read("state 4", [4, 23, 7, 5], BYTES),
        read("a byte too short for its type", [0, 23, 7, 4], BYTES),
        read("type 10", [0, 10, 7, 0], BYTES),
        read("type 11", [0, 11, 7, 0], BYTES),
        read("ends a byte behind the slice", [0, 23, 8, 5], BYTES),
        read("NULL behind the slice's end", [0, 0, 13, 0], BYTES),
        read("start and length pass 2^64 - 1", [0, 15, u64::MAX, 1], BYTES),
    ]
}

fn views() -> Vec<Worked> {
    vec![
        heading("3.4 The bytes that an entry shows: start, length"),
        view("a text", [0, 23, 7, 5], BYTES),
        view("a blob", [0, 16, 9, 2], BYTES),
        view("an integer", [0, 1, 7, 1], BYTES),
        view("a text that ends a byte behind the slice", [0, 23, 8, 5], BYTES),
    ]
}
