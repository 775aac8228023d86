//! Changes of which numbers are padded, and of which of them mark a row. The Rust has none of that.

use super::Change;
use crate::calls::{BLOCK, GAP_SLICE, MODES, READ_VARINT, RECOVER_SLICE, SCAN, UNALLOC};
use crate::cases::padding::{cells, first_mode, freed, gaps, learned, lengths, made_up, types, varints};
use crate::rules::varint::written;

const OF_A_VARINT: Change = Change {
    what: "",
    change: |_| {},
    call: READ_VARINT,
    cases: |sink, _, _| varints(sink),
    in_the_rust: false,
    at_most: 9,
};

const OF_A_ROW: Change = Change { call: SCAN, cases: |sink, _, _| lengths(sink), at_most: 45, ..OF_A_VARINT };

pub const CHANGES: &[Change] = &[
    Change {
        what: "eight bytes are enough for 2^56",
        change: |l| l.marks.padded = |value, width| width > written(value & !(1 << 56)).len(),
        ..OF_A_VARINT
    },
    Change {
        what: "the last number that so many bytes hold takes one more",
        change: |l| l.marks.padded = |value, width| width > written(value.saturating_add(1)).len(),
        at_most: 2,
        ..OF_A_VARINT
    },
    Change {
        what: "0 takes no byte",
        change: |l| l.marks.padded = |value, width| value == 0 || width > written(value).len(),
        at_most: 1,
        ..OF_A_VARINT
    },
    Change { what: "the last type alone marks a row", change: |l| l.marks.types = |_, last| last, ..OF_A_ROW },
    Change { what: "no type marks a row", change: |l| l.marks.types = |_, _| false, ..OF_A_ROW },
    Change {
        what: "no type marks a row whose header is rebuilt",
        change: |l| l.marks.types = |_, _| false,
        call: BLOCK,
        cases: |sink, _, _| types(sink),
        ..OF_A_ROW
    },
    Change { what: "a header's length marks no row", change: |l| l.marks.header = |_, types| types, ..OF_A_ROW },
    Change {
        what: "a header's length marks no row in the first mode",
        change: |l| l.marks.header = |_, types| types,
        call: MODES,
        cases: |sink, _, _| first_mode(sink),
        ..OF_A_ROW
    },
    Change {
        what: "a header's length marks no row of learned types",
        change: |l| l.marks.header = |_, types| types,
        call: UNALLOC,
        cases: |sink, _, _| learned(sink),
        ..OF_A_ROW
    },
    Change {
        what: "a header's length marks no row of a gap",
        change: |l| l.marks.header = |_, types| types,
        call: GAP_SLICE,
        cases: |sink, _, _| gaps(sink),
        ..OF_A_ROW
    },
    Change {
        what: "rows of freed blocks have no mark",
        change: |l| l.marks.freed = false,
        call: RECOVER_SLICE,
        cases: |sink, _, _| freed(sink),
        ..OF_A_ROW
    },
    Change {
        what: "a cell's payload length marks its row",
        change: |l| l.marks.payload_length = true,
        call: BLOCK,
        cases: |sink, _, _| cells(sink),
        ..OF_A_ROW
    },
    Change {
        what: "a cell's row id marks its row",
        change: |l| l.marks.row_id = true,
        call: BLOCK,
        cases: |sink, _, _| cells(sink),
        ..OF_A_ROW
    },
    Change {
        what: "a type that a mode does not read marks its row",
        change: |l| l.marks.unread = true,
        call: MODES,
        cases: |sink, _, _| first_mode(sink),
        ..OF_A_ROW
    },
    Change {
        what: "a type behind the learned ones marks its row",
        change: |l| l.marks.unread = true,
        call: UNALLOC,
        cases: |sink, _, _| learned(sink),
        ..OF_A_ROW
    },
    Change {
        what: "a length that is made up marks its row",
        change: |l| l.marks.made_up = true,
        call: BLOCK,
        cases: |sink, _, _| made_up(sink),
        ..OF_A_ROW
    },
];
