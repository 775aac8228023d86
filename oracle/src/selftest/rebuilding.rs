//! Changes of the numbers by which headers are rebuilt. The Rust has one of them.

use super::Change;
use crate::calls::{BLOCK, GAPS};
use crate::cases::rebuilding::{columns, long_rows, notes, type_bytes, walks, TWO_BYTES};
use crate::rules::limits::{EXACT, NO_GUESSES, ONE_BYTE};

pub const CHANGES: &[Change] = &[
    Change {
        what: "126 columns are too many for a made-up byte",
        change: |l| l.ways = &[(NO_GUESSES, 510), (ONE_BYTE, 125), (EXACT, 510)],
        call: BLOCK,
        cases: |sink, _, _| columns(sink),
        in_the_rust: false,
        at_most: 130,
    },
    Change {
        what: "127 columns are not too many for a made-up byte",
        change: |l| l.ways = &[(NO_GUESSES, 510), (ONE_BYTE, 127), (EXACT, 510)],
        call: BLOCK,
        cases: |sink, _, _| columns(sink),
        in_the_rust: true,
        at_most: 800,
    },
    Change {
        what: "a walk over a table of 126 columns is refused where a byte is made up",
        change: |l| l.ways = &[(NO_GUESSES, 510), (ONE_BYTE, 125), (EXACT, 510)],
        call: GAPS,
        cases: |sink, _, _| walks(sink),
        in_the_rust: false,
        at_most: 140,
    },
    Change {
        what: "510 columns are refused where the header length is made up exactly",
        change: |l| l.columns = 509,
        call: BLOCK,
        cases: |sink, _, _| columns(sink),
        in_the_rust: false,
        at_most: 514,
    },
    Change {
        what: "510 bytes of types are too many",
        change: |l| l.type_bytes = 509,
        call: BLOCK,
        cases: |sink, _, _| type_bytes(sink),
        in_the_rust: false,
        at_most: 810,
    },
    Change {
        what: "511 bytes of types are not too many",
        change: |l| (l.type_bytes, l.most_header) = (511, 513),
        call: BLOCK,
        cases: |sink, _, _| type_bytes(sink),
        in_the_rust: false,
        at_most: 810,
    },
    Change {
        what: "a header length takes one byte with 127 bytes of types",
        change: |l| l.made_up = |types| types as u64 + if types <= 127 { 1 } else { 2 },
        call: BLOCK,
        cases: |sink, _, _| type_bytes(sink),
        in_the_rust: false,
        at_most: 220,
    },
    Change {
        what: "a header length takes two bytes with 126 bytes of types",
        change: |l| l.made_up = |types| types as u64 + if types <= 125 { 1 } else { 2 },
        call: BLOCK,
        cases: |sink, _, _| long_rows(sink, &[126]),
        in_the_rust: false,
        at_most: 65_700,
    },
    Change {
        what: "a row of 65,534 bytes whose header length takes two bytes is too long",
        change: |l| l.consumed = 65_535,
        call: BLOCK,
        cases: |sink, _, _| long_rows(sink, &TWO_BYTES),
        in_the_rust: false,
        at_most: 65_700,
    },
    Change {
        what: "a row of 65,535 bytes whose header length takes two bytes is not too long",
        change: |l| l.consumed = 65_537,
        call: BLOCK,
        cases: |sink, _, _| long_rows(sink, &TWO_BYTES),
        in_the_rust: false,
        at_most: 65_700,
    },
    Change {
        what: "a header length leaves itself out, so that bodies begin a byte early",
        change: |l| l.made_up = |types| types as u64,
        call: BLOCK,
        cases: |sink, _, _| notes(sink),
        in_the_rust: false,
        at_most: 10,
    },
];
