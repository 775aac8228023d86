//! Section 12: three modes.

use super::making::*;
use super::Worked;

pub fn all() -> Vec<Worked> {
    [types(), bodies(), rows(), normal(), bare(), order(), checks()].into_iter().flatten().collect()
}

fn types() -> Vec<Worked> {
    vec![
        heading("12.1 The types that are read"),
        modes("no more than columns", "04 08 09 08", 0, 2, 1),
        modes("the last runs past the header's end", "02 8008 00", 0, 2, 1),
        modes("one that runs off fails mode 1, and then modes 2 and 3", "02 80 80 80 80", 0, 3, 1),
        modes("no type at all in mode 1", "01 08 08", 0, 1, 1),
    ]
}

fn bodies() -> Vec<Worked> {
    vec![
        heading("12.2 Bodies that do not fit"),
        modes("a text of five bytes in one: the next body starts there", "03 17 01 2a", 0, 2, 1),
        modes("types 10 and 11", "04 0a 0b 01 2a", 0, 3, 1),
    ]
}

fn rows() -> Vec<Worked> {
    vec![
        heading("12.3 Where a row ends"),
        modes("behind its last body that fits", "03 01 06 2a 00", 0, 2, 1),
        modes("where bodies start, if none fits", "02 06 00 00", 0, 1, 1),
        heading("12.4 Confidences"),
        modes("0.8 in mode 1, base 1000", "02 01 2a", 1000, 1, 1),
        modes("0.5 in mode 2, 0.3 in mode 3, base 1000", "00 08 00 00 08", 1000, 2, 2),
    ]
}

fn normal() -> Vec<Worked> {
    vec![
        heading("12.5 The header length of mode 1; where it fails, modes 2 and 3 are tried"),
        modes("h 0, less than its own byte", "00 08 09", 0, 1, 1),
        modes("h 1 in two bytes, less than these", "8001 08", 0, 1, 1),
        modes("h 4 of three bytes", "04 08 09", 0, 2, 1),
        modes("h 513", joined(&[&"8401 01", &times(10, 510), &"2a"]), 0, 1, 1),
    ]
}

fn bare() -> Vec<Worked> {
    vec![
        heading("12.6 Modes 2 and 3"),
        modes("mode 2 alone: types from the first byte on", "00 01 2a", 0, 2, 2),
        modes("both: mode 3 has a type at the fifth byte, its body behind it", "00 00 00 07 01 05 07", 0, 2, 2),
        modes("both: the body ends the block", "00 00 00 06 01 07", 0, 2, 2),
        modes("both: two bytes behind the body", "00 00 00 08 01 01 05 07", 0, 2, 2),
        modes("four bytes: no mode 3", "00 08 00 00", 0, 2, 2),
        modes("one column: no mode 3", "00 08 00 00 08", 0, 1, 2),
        modes("mode 2 fails at its second type, mode 3 does not", "80 80 80 80 08 80", 0, 2, 2),
    ]
}

fn order() -> Vec<Worked> {
    vec![
        heading("12.7 The order of modes"),
        modes("mode 1 twice, one row behind the other", "02 08 02 01 2a", 0, 1, 3),
        modes("up to the first place where it fails", "02 08 00 02 08", 0, 1, 3),
        modes("two bytes left: not tried", "02 08 02 08", 0, 1, 3),
        modes("two bytes in all: mode 2", "02 08", 0, 1, 3),
        modes("three rows, room for 2", "02 08 02 09 02 00 00", 0, 1, 2),
    ]
}

fn checks() -> Vec<Worked> {
    vec![
        heading("12.8 The checks"),
        modes("1: 511 columns", "02 08 00", 0, 511, 1),
        modes("4: a base of 2^48 + 1", "02 08 00", FARTHEST + 1, 1, 1),
        heading("12.9 The values of a row"),
        modes("a body, one that does not fit, an unused entry", "03 01 17 2a", 0, 3, 1),
        read("the body", [0, 1, 3, 1], "03 01 17 2a"),
        read("the one that does not fit", [1, 23, 0, 0], "03 01 17 2a"),
    ]
}
