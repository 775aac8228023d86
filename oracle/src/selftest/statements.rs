//! Changes of how a statement is read by the format. The Rust has the other reading alone.

use super::Change;
use crate::calls::COLUMN_HINTS;
use crate::cases::{keys, statements};
use crate::rules::statement::Reading;

const OF_A_STATEMENT: Change = Change {
    what: "",
    change: |_| {},
    call: COLUMN_HINTS,
    cases: |sink, _, _| keys::fixed(sink),
    in_the_rust: false,
    at_most: 30,
};

pub const CHANGES: &[Change] = &[
    Change {
        what: "by the format the Rust's reading is made",
        change: |l| l.by_format.reading = Reading::AsRust,
        ..OF_A_STATEMENT
    },
    Change {
        what: "INT makes a key as INTEGER does",
        change: |l| l.by_format.key_type = |word| word == b"INT" || word == b"INTEGER",
        ..OF_A_STATEMENT
    },
    Change {
        what: "a type that begins with INTEGER makes a key",
        change: |l| l.by_format.key_type = |word| word.starts_with(b"INTEGER"),
        ..OF_A_STATEMENT
    },
    Change { what: "a key's hint is Integer", change: |l| l.by_format.key = 0, ..OF_A_STATEMENT },
    Change { what: "DESC behind a key is ignored", change: |l| l.by_format.descending = |_| false, ..OF_A_STATEMENT },
    Change {
        what: "DESC is looked for one word further on",
        change: |l| l.by_format.descending = |behind| behind.get(1).is_some_and(|word| *word == b"DESC"),
        ..OF_A_STATEMENT
    },
    Change {
        what: "a word that begins with DESC is taken for it",
        change: |l| l.by_format.descending = |behind| behind.first().is_some_and(|word| word.starts_with(b"DESC")),
        ..OF_A_STATEMENT
    },
    Change {
        what: "a name that begins with a constraint's word is dropped",
        change: |l| l.by_format.constraint = |first, word| first.starts_with(word),
        ..OF_A_STATEMENT
    },
    Change { what: "no bracket ends a constraint's word", change: |l| l.by_format.ends = |_| false, ..OF_A_STATEMENT },
    Change {
        what: "a closing bracket does not end a constraint's word",
        change: |l| l.by_format.ends = |byte| byte == b'(',
        ..OF_A_STATEMENT
    },
    Change {
        what: "by the format a statement with 510 columns is refused",
        change: |l| l.columns = 509,
        cases: statements::all,
        at_most: 1021,
        ..OF_A_STATEMENT
    },
];
