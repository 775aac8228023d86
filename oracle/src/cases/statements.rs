//! Statements: every short one over the marks that count, every word with each change, and random ones; each in both readings.

use super::bytes::every;
use super::keys;
use super::records::most_columns;
use super::worked::{self, Worked};
use crate::calls::{COLUMN_HINTS, READINGS, STATEMENT};
use crate::case::Case;
use crate::panics;
use crate::random::Random;
use crate::rules::limits::Limits;
use crate::rules::statement::{column_list, hints, Reading};
use crate::runner::Sink;

pub const TYPES: [&str; 29] = [
    "INT",
    "INTEGER",
    "INT8",
    "BOOLEAN",
    "TINYINT",
    "SMALLINT",
    "MEDIUMINT",
    "BIGINT",
    "TEXT",
    "CHAR(20)",
    "CHARACTER",
    "VARCHAR(9)",
    "CLOB",
    "NCHAR(5)",
    "NVARCHAR(10)",
    "REAL",
    "FLOAT",
    "DOUBLE",
    "NUMERIC",
    "DECIMAL(4)",
    "BLOB",
    "BINARY",
    "VARBINARY",
    "DATE",
    "UNSIGNED",
    "NULL",
    "POINT",
    "XINT",
    "A",
];

pub const CONSTRAINTS: [&str; 12] = [
    "PRIMARY",
    "UNIQUE",
    "CHECK",
    "FOREIGN",
    "CONSTRAINT",
    "KEY",
    "PRIMARY KEY",
    "INTEGER PRIMARY KEY",
    "NOT NULL",
    "check_day",
    "uniquely",
    "DEFAULT 'a'",
];

pub const BLANKS: [&str; 8] = [" ", "\t", "\n", "\u{b}", "\u{c}", "\r", "  ", " \t "];

/// Bytes that are no blanks, though some take them for such.
const NO_BLANKS: [u8; 9] = [0, 8, 14, 28, 29, 30, 31, 33, 127];

/// A last `)` before the first `(` makes the Rust panic; those stand in the list of panics.
fn inverted(text: &[u8]) -> bool {
    column_list(text).is_none() && text.contains(&b'(') && text.contains(&b')')
}

/// A statement in both readings.
pub fn both(text: &[u8], room: usize) -> [Case; 2] {
    READINGS.map(|call| Case::new(call, &[], &[text], &[room]))
}

pub fn put(sink: &mut dyn Sink, text: &[u8], room: usize) {
    both(text, room)
        .into_iter()
        .filter(|case| case.call != STATEMENT || !inverted(text))
        .for_each(|case| sink.put(case));
}

pub fn table(sink: &mut dyn Sink, columns: &str) {
    let text = format!("CREATE TABLE t({columns})");
    put(sink, text.as_bytes(), 6);
}

pub fn all(sink: &mut dyn Sink, random: &mut Random, count: usize) {
    every(b"(),a ", 6, |text| put(sink, text, 4));
    every(b"(a,b I)", 5, |text| put(sink, text, 4));
    words(sink);
    pairs(sink);
    blanks(sink);
    counts(sink);
    elsewhere(sink);
    for i in 0..count {
        let text = random_statement(random);
        let room = if i % 4 == 0 { random.below(12) } else { 520 };
        put(sink, &text, room);
    }
    if sink.wants_by_format() {
        keys::all(sink, random, count / 3);
    }
}

/// By the format, statements that stand elsewhere as the Rust reads them: worked ones, and those on which it panics.
fn elsewhere(sink: &mut dyn Sink) {
    let worked = worked::all().into_iter().filter_map(|part| match part {
        Worked::Case { case, .. } => Some(case),
        Worked::Heading(_) => None,
    });
    for case in worked.chain(panics::list()).filter(|case| case.call == STATEMENT) {
        sink.put(Case { call: COLUMN_HINTS, ..case });
    }
}

/// Each type word as it is, in other cases, with a byte more, and with a byte less at either end.
fn words(sink: &mut dyn Sink) {
    for word in TYPES.iter().chain(&CONSTRAINTS) {
        let lower = word.to_lowercase();
        let mixed = mixed(word);
        let longer = format!("{word}X");
        for form in [word, lower.as_str(), &mixed, &longer, &word[1..], &word[..word.len() - 1]] {
            for columns in [
                format!("a {form}"),
                form.to_string(),
                format!("{form} INT"),
                format!("a b {form}"),
                format!("a {form} PRIMARY KEY"),
                format!("INTEGER{form}PRIMARYKEY"),
                format!("{form}(a, b)"),
                format!("a INT, {form}"),
                format!("a INT CHECK (a > 1, {form}), b {form}"),
            ] {
                table(sink, &columns);
            }
        }
    }
}

/// Every second letter in upper case.
pub fn mixed(word: &str) -> String {
    let cased = |(i, c): (usize, char)| if i % 2 == 0 { c.to_ascii_uppercase() } else { c.to_ascii_lowercase() };
    word.chars().enumerate().map(cased).collect()
}

fn pairs(sink: &mut dyn Sink) {
    let all: Vec<&str> = TYPES.iter().chain(&CONSTRAINTS).copied().collect();
    for a in &all {
        for b in &all {
            for between in [" ", "\t", ",", ""] {
                table(sink, &format!("{a}{between}{b}"));
            }
        }
    }
}

fn blanks(sink: &mut dyn Sink) {
    for byte in 0..=255u8 {
        for columns in [&b"a?INT"[..], b"?a INT", b"a INT?", b"?", b"a ?INT", b"? INT", b"a INT?PRIMARY?KEY"] {
            with_byte(sink, columns, byte);
        }
    }
}

/// The columns with a byte in place of each `?`.
pub fn with_byte(sink: &mut dyn Sink, columns: &[u8], byte: u8) {
    let text: Vec<u8> = columns.iter().map(|&b| if b == b'?' { byte } else { b }).collect();
    put(sink, &[b"(", &text[..], b")"].concat(), 3);
}

/// No columns, one, 510 and 511, and rooms around each count. By the format there is one more, the key.
fn counts(sink: &mut dyn Sink) {
    for count in [0, 1, 2, 3, 126, 127, 128, 300, 509, 510, 511, 512, 600] {
        let columns: Vec<String> = (0..count).map(|i| format!("c{i} {}", TYPES[i % TYPES.len()])).collect();
        let text = format!("CREATE TABLE t (id INTEGER PRIMARY KEY, {})", columns.join(", "));
        let limits = Limits::of_the_rules();
        let due = column_list(text.as_bytes()).map_or(0, |l| hints(&limits, Reading::AsRust, l).len());
        for room in [0, 1, 2, due.saturating_sub(1), due, due + 1, 126, 127, 510, 511] {
            put(sink, text.as_bytes(), room);
        }
        if sink.wants_by_format() {
            put(sink, text.as_bytes(), due + 2);
        }
    }
}

fn random_statement(random: &mut Random) -> Vec<u8> {
    let mut text = String::from(random.pick(&["CREATE TABLE t (", "(", "create table x(", "t((", ""]));
    let most = 14 + most_columns(random);
    let columns = random.mostly_below(6, 30, most);
    for i in 0..columns {
        if i > 0 {
            text.push_str(random.pick(&[",", ", ", " ,", ",\n  ", ",,", " , "]));
        }
        piece(random, &mut text);
    }
    text.push_str(random.pick(&[")", ");", "))", " ) WITHOUT ROWID", ")", ""]));
    let mut bytes = text.into_bytes();
    bytes.iter_mut().for_each(|b| {
        if random.once_in(4) {
            *b = b.to_ascii_lowercase();
        }
    });
    spoil(random, &mut bytes);
    bytes
}

fn piece(random: &mut Random, text: &mut String) {
    for _ in 0..1 + random.below(4) {
        let word = match random.below(5) {
            0 => random.pick(&CONSTRAINTS),
            1 | 2 => random.pick(&TYPES),
            _ => random.pick(&["a", "plot", "value", "note", "b1", "(x)", "'q, r'", "INTEGERPRIMARYKEY"]),
        };
        text.push_str(word);
        text.push_str(random.pick(&BLANKS));
    }
}

/// Now and then a byte that does not belong; some are above 127, which only the rules speak of.
fn spoil(random: &mut Random, bytes: &mut Vec<u8>) {
    if !random.once_in(3) {
        return;
    }
    let at = random.below(bytes.len() + 1);
    match random.below(5) {
        0 => bytes.insert(at, random.pick(&NO_BLANKS)),
        1 => bytes.insert(at, random.pick(b"(),")),
        2 => bytes.insert(at, 128 + random.below(128) as u8),
        3 => bytes.truncate(at),
        _ => bytes.insert(at, random.below(128) as u8),
    }
}
