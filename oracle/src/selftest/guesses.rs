//! Changes of what is listed without guesses, and of the codes that name a way of rebuilding headers. The Rust has none of that.

use super::Change;
use crate::calls::{BLOCK, GAPS, GAP_SLICE};
use crate::cases::gaps::{leaves_of_every_size, AsGaps};
use crate::cases::rebuilding::{at_cells, codes, columns, notes, pages, walks};
use crate::rules::limits::{EXACT, NO_GUESSES, ONE_BYTE};

const OF_A_BLOCK: Change =
    Change { what: "", change: |_| {}, call: BLOCK, cases: |sink, _, _| codes(sink), in_the_rust: false, at_most: 10 };

pub const CHANGES: &[Change] = &[
    Change {
        what: "without guesses cells have no rows",
        change: |l| l.cells = |way| way != NO_GUESSES,
        cases: |sink, _, _| at_cells(sink),
        ..OF_A_BLOCK
    },
    Change {
        what: "without guesses cells of a page have no rows",
        change: |l| l.cells = |way| way != NO_GUESSES,
        call: GAP_SLICE,
        cases: |sink, _, _| pages(sink),
        at_most: 300,
        ..OF_A_BLOCK
    },
    Change {
        what: "without guesses a byte is made up",
        change: |l| l.guesses = |_| true,
        cases: |sink, _, _| notes(sink),
        ..OF_A_BLOCK
    },
    Change {
        what: "without guesses a byte is made up in a walk",
        change: |l| l.guesses = |_| true,
        call: GAPS,
        cases: |sink, _, _| leaves_of_every_size(&mut AsGaps(sink)),
        at_most: 600,
        ..OF_A_BLOCK
    },
    Change {
        what: "without guesses 127 columns are refused",
        change: |l| l.ways = &[(NO_GUESSES, 126), (ONE_BYTE, 126), (EXACT, 510)],
        cases: |sink, _, _| columns(sink),
        at_most: 130,
        ..OF_A_BLOCK
    },
    Change {
        what: "without guesses a walk over a table of 127 columns is refused",
        change: |l| l.ways = &[(NO_GUESSES, 126), (ONE_BYTE, 126), (EXACT, 510)],
        call: GAPS,
        cases: |sink, _, _| walks(sink),
        at_most: 130,
        ..OF_A_BLOCK
    },
    Change { what: "the code 0 names no way", change: |l| l.ways = &[(ONE_BYTE, 126), (EXACT, 510)], ..OF_A_BLOCK },
    Change {
        what: "the code 3 names a way",
        change: |l| l.ways = &[(NO_GUESSES, 510), (ONE_BYTE, 126), (EXACT, 510), (3, 510)],
        ..OF_A_BLOCK
    },
];
