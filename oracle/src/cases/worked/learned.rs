//! Sections 13 and 14: learned hints, and carving with them.

use super::making::*;
use super::Worked;

const NULL_ENTRY: [u64; 4] = [0, 0, 0, 0];
const ZERO: [u64; 4] = [0, 8, 0, 0];
const UNUSED: [u64; 4] = [3, 0, 0, 0];
const BAD: [u64; 4] = [4, 0, 0, 0];

pub fn all() -> Vec<Worked> {
    [groups(), types(), commonest(), matches(), percents(), headers(), offsets()].into_iter().flatten().collect()
}

fn groups() -> Vec<Worked> {
    vec![
        heading("13.1 Rows to learn from"),
        learn("two rows of two columns", "2a", &[[0, 1, 0, 1], ZERO, [0, 1, 0, 1], ZERO], 2, 2),
        learn("a rest that is no whole group is not read", "", &[ZERO, ZERO, BAD], 2, 2),
        learn("1: a width of 511", "", &[ZERO], 511, 2),
        learn("2: a bad entry", "", &[ZERO, BAD], 2, 2),
        learn("2: an unused entry before one that is not", "", &[UNUSED, ZERO], 2, 2),
        learn("9: two types, room for 1", "", &[ZERO, NULL_ENTRY], 2, 1),
    ]
}

/// One row; each entry is a type and as many bytes as it takes, one behind the other.
fn row(name: &str, bytes: &str, types: &[(u64, u64)]) -> Worked {
    let mut start = 0;
    let mut entries = Vec::new();
    for &(kind, length) in types {
        entries.push([0, kind, start, length]);
        start += length;
    }
    learn(name, bytes, &entries, entries.len() as u64, entries.len())
}

fn types() -> Vec<Worked> {
    vec![
        heading("13.2 What an entry counts as"),
        row("NULL, 0 and 1", "", &[(0, 0), (8, 0), (9, 0)]),
        row("2, -1, 127 and -128", "02 ff 7f 80", &[(1, 1), (1, 1), (1, 1), (1, 1)]),
        row("128, -129, 32767 and -32768", "0080 ff7f 7fff 8000", &[(2, 2), (2, 2), (2, 2), (2, 2)]),
        row("32768 and -32769", "008000 ff7fff", &[(3, 3), (3, 3)]),
        row("2^23, 2^31 - 1 and -2^31", "00800000 7fffffff 80000000", &[(4, 4), (4, 4), (4, 4)]),
        row("2^31 and -2^31 - 1 in six bytes", "000080000000 ffff7fffffff", &[(5, 6), (5, 6)]),
        row("5 in eight bytes, and a real", "0000000000000005 3ff0000000000000", &[(6, 8), (7, 8)]),
        row("texts of 0 and 2 bytes, blobs of 0 and 2", "6869 6869", &[(13, 0), (17, 2), (12, 0), (16, 2)]),
        learn("states 1 and 2", "", &[[1, 23, 0, 0], [2, 0, 0, 0]], 2, 2),
        learn("a text that is not UTF-8", "ff", &[[0, 15, 0, 1]], 1, 1),
    ]
}

fn commonest() -> Vec<Worked> {
    let five = [0, 1, 0, 1];
    vec![
        heading("13.3 The type that most entries count as"),
        learn("5, 0 and 5", "05", &[five, ZERO, five], 1, 1),
        learn("5 and 0: the smaller type", "05", &[five, ZERO], 1, 1),
        learn("unused entries are left out", "05", &[five, five, five, UNUSED, five, UNUSED], 2, 2),
        learn("as many types as the longest row has entries", "05", &[five, UNUSED, UNUSED, five, ZERO, UNUSED], 3, 3),
    ]
}

fn matches() -> Vec<Worked> {
    let one = |name: &str, region: &str, learned: u64| unallocated(name, region, &[learned], 0, 1);
    vec![
        heading("14.1 A type matches a learned one"),
        one("type 0 and 0", "02 00 0a", 0),
        one("type 6 and 9", "02 06 0a0a0a0a0a0a0a0a", 9),
        one("type 7 and 7", "02 07 0a0a0a0a0a0a0a0a", 7),
        one("type 7 and 6", "02 07 0a0a0a0a0a0a0a0a", 6),
        one("type 15 and 27", "02 0f 0a", 27),
        one("type 15 and 26", "02 0f 0a", 26),
        one("type 10 and 10: a body of a reserved type does not fit", "02 0a 0a", 10),
    ]
}

fn percents() -> Vec<Worked> {
    let three = |name: &str, types: &[u64]| unallocated(name, "04 08 08 08", types, 0, 1);
    vec![
        heading("14.2 Percents and confidences"),
        three("2 of 3", &[8, 8, 7]),
        three("1 of 3", &[7, 8, 7]),
        unallocated("1 of 200, cut down to 0", joined(&[&"02 08", &times(10, 199)]), &[8; 200], 0, 1),
    ]
}

fn headers() -> Vec<Worked> {
    let long = |h: &str| joined(&[&h, &"01", &times(10, 510), &"2a"]);
    vec![
        heading("14.3 An attempt"),
        unallocated("h 3 of two bytes", "03 08", &[8], 0, 1),
        unallocated("h 512", long("8400"), &[8], 0, 1),
        unallocated("h 513", long("8401"), &[8], 0, 1),
        unallocated("more types than hints: the first alone is read", "03 08 01 2a", &[8], 0, 1),
        unallocated("fewer types than hints", "02 08 0a", &[8, 8], 0, 1),
        unallocated("a type that runs off", "02 80", &[0], 0, 1),
        unallocated("a type that runs past h, its body at h", "02 8001", &[8], 0, 1),
        unallocated("bodies, one behind the other", "03 01 0f 2a 61", &[8, 13], 0, 1),
    ]
}

fn offsets() -> Vec<Worked> {
    vec![
        heading("14.4 The offsets that are tried"),
        unallocated("two hints, two bytes", "02 08", &[8, 8], 0, 1),
        unallocated("two hints, three bytes", "02 08 0a", &[8, 8], 0, 1),
        unallocated("from a row on by its bytes", "02 01 02 08 02 08", &[8], 0, 3),
        unallocated("three rows, room for 2", "02 08 02 09 02 08", &[8], 0, 2),
        heading("14.5 The checks"),
        unallocated("base 1000: the offset has it, the entries have not", "0a 02 01 2a", &[8], 1000, 1),
        unallocated("1: 511 types", "02 08", &[8; 511], 0, 1),
        unallocated("4: a base of 2^48 + 1", "02 08", &[8], FARTHEST + 1, 1),
        heading("14.6 The values of a row"),
        unallocated("one column of two", "02 01 2a", &[8, 8], 0, 1),
        read("the column that is there", [0, 1, 2, 1], "02 01 2a"),
    ]
}
