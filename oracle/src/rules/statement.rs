//! Hints out of a CREATE TABLE statement, by two readings of its pieces.

use super::limits::{ByFormat, Limits};

/// Which pieces have no hint, and what that of a key is.
#[derive(Clone, Copy, Debug, PartialEq, Eq)]
pub enum Reading {
    AsRust,
    ByFormat,
}

enum Named {
    /// The word begins so.
    Begins(&'static [u8]),
    /// The word is just that.
    Is(&'static [u8]),
}

use Named::{Begins, Is};

const INTEGER: u8 = 0;
const ANY: u8 = 5;

const TYPES: [(u8, Named); 20] = [
    (0, Begins(b"INT")),
    (0, Is(b"BOOLEAN")),
    (0, Is(b"TINYINT")),
    (0, Is(b"SMALLINT")),
    (0, Is(b"MEDIUMINT")),
    (0, Is(b"BIGINT")),
    (1, Begins(b"REAL")),
    (1, Begins(b"FLOAT")),
    (1, Begins(b"DOUBLE")),
    (1, Begins(b"NUMERIC")),
    (1, Begins(b"DECIMAL")),
    (2, Begins(b"TEXT")),
    (2, Begins(b"CHAR")),
    (2, Begins(b"VARCHAR")),
    (2, Begins(b"NCHAR")),
    (2, Begins(b"NVARCHAR")),
    (2, Is(b"CLOB")),
    (3, Begins(b"BLOB")),
    (3, Is(b"BINARY")),
    (3, Is(b"VARBINARY")),
];

const CONSTRAINTS: [&[u8]; 5] = [b"PRIMARY", b"UNIQUE", b"CHECK", b"FOREIGN", b"CONSTRAINT"];
const KEY_COLUMN: [&[u8]; 3] = [b"INTEGER", b"PRIMARY", b"KEY"];

/// The bytes between the first `(` and the last `)`, where the one stands before the other.
pub fn column_list(statement: &[u8]) -> Option<&[u8]> {
    let open = statement.iter().position(|&b| b == b'(')?;
    let close = statement.iter().rposition(|&b| b == b')')?;
    (open < close).then(|| &statement[open + 1..close])
}

pub fn hints(limits: &Limits, reading: Reading, list: &[u8]) -> Vec<u8> {
    list.split(|&b| b == b',').filter_map(|piece| hint(&limits.by_format, reading, piece)).collect()
}

fn hint(format: &ByFormat, reading: Reading, piece: &[u8]) -> Option<u8> {
    let raised: Vec<u8> = piece.iter().map(u8::to_ascii_uppercase).collect();
    let words: Vec<&[u8]> = raised.split(blank).filter(|w| !w.is_empty()).collect();
    let first = words.first()?;
    let (dropped, key) = match reading {
        Reading::AsRust => (is_lost(&raised, first), None),
        Reading::ByFormat => (is_constraint(format, first), key(format, &words)),
    };
    (!dropped).then(|| key.unwrap_or_else(|| declared(&words)))
}

/// Whether the Rust drops a piece: for three words that it holds anywhere, or for how it begins.
fn is_lost(raised: &[u8], first: &[u8]) -> bool {
    let holds = |word: &[u8]| raised.windows(word.len()).any(|w| w == word);
    KEY_COLUMN.iter().all(|w| holds(w)) || CONSTRAINTS.iter().any(|w| first.starts_with(w))
}

/// Whether a piece is a constraint by its whole first word, which a round bracket ends, too.
fn is_constraint(format: &ByFormat, first: &[u8]) -> bool {
    let word = first.split(|&b| (format.ends)(b)).next().unwrap_or_default();
    CONSTRAINTS.iter().any(|w| (format.constraint)(word, w))
}

/// The hint of a key: three words behind its name make it one.
fn key(format: &ByFormat, words: &[&[u8]]) -> Option<u8> {
    let [_, kind, b"PRIMARY", b"KEY", behind @ ..] = words else { return None };
    let hint = if (format.descending)(behind) { INTEGER } else { format.key };
    (format.key_type)(kind).then_some(hint)
}

/// By the second word.
fn declared(words: &[&[u8]]) -> u8 {
    let named = words.get(1).copied().unwrap_or(b"");
    let found = TYPES.iter().find(|(_, t)| match t {
        Begins(word) => named.starts_with(word),
        Is(word) => named == *word,
    });
    found.map_or(ANY, |t| t.0)
}

fn blank(b: &u8) -> bool {
    matches!(b, 9..=13 | 32)
}
