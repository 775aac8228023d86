//! Statements word by word, brackets, blanks and row ids; patterns that overlap; and lists that are just full and one short.

use crate::calls::{COLUMN_HINTS, READINGS, SEARCH, STATEMENT};
use crate::case::Case;
use crate::cases::statements::{CONSTRAINTS, TYPES};
use crate::runner::Sink;

pub fn all(sink: &mut dyn Sink) {
    words(sink);
    blanks(sink);
    brackets(sink);
    row_ids(sink);
    hint_rooms(sink);
    patterns(sink);
    place_rooms(sink);
}

fn columns(sink: &mut dyn Sink, columns: &str) {
    statement(sink, &format!("({columns})"), &READINGS);
}

fn statement(sink: &mut dyn Sink, text: &str, readings: &[u8]) {
    for &call in readings {
        sink.put(Case::new(call, &[], &[text.as_bytes()], &[4]));
    }
}

/// Each word as a type, with a letter more, and in lower case; each as a name, and at a constraint's start. By the format those that
/// are read there in another way.
fn words(sink: &mut dyn Sink) {
    for word in TYPES.iter().chain(&CONSTRAINTS) {
        for form in [word.to_string(), format!("{word}X"), word.to_lowercase()] {
            statement(sink, &format!("(a {form}, b)"), &[STATEMENT]);
            statement(sink, &format!("({form} TEXT, b)"), &[STATEMENT]);
        }
    }
    for word in CONSTRAINTS {
        for form in [word.to_string(), format!("{word}X"), word.to_lowercase(), format!("{word}(a)")] {
            statement(sink, &format!("({form} TEXT, b)"), &[COLUMN_HINTS]);
        }
    }
}

fn blanks(sink: &mut dyn Sink) {
    for byte in [0, 8, 9, 10, 11, 12, 13, 14, 31, 32, 33, 127] {
        let blank = char::from(byte);
        columns(sink, &format!("a{blank}INT"));
        columns(sink, &format!("{blank}CHECK{blank}, a INT{blank}"));
    }
}

fn brackets(sink: &mut dyn Sink) {
    for text in [
        "",
        "(",
        ")",
        "()",
        "( )",
        "(,)",
        "(a",
        "a)",
        "(a)",
        "(a) b)",
        "((a), b INT))",
        "(a INT,,b TEXT,)",
        "x (a) (b)",
    ] {
        statement(sink, text, &READINGS);
    }
}

/// The three words in one phrase, scattered, within others, and without one of them.
fn row_ids(sink: &mut dyn Sink) {
    for piece in [
        "id INTEGER PRIMARY KEY",
        "id integer not null primary and key",
        "KEY PRIMARY INTEGER",
        "xINTEGERxPRIMARYxKEYx",
        "id INT PRIMARY KEY",
        "id INTEGER KEY",
        "id INTEGER PRIMARY",
        "id TEXT PRIMARY KEY",
        "id, INTEGER, PRIMARY KEY",
    ] {
        columns(sink, &format!("{piece}, b REAL"));
    }
}

fn hint_rooms(sink: &mut dyn Sink) {
    for count in [1, 2, 3, 126, 127] {
        let text = format!("({})", vec!["a REAL"; count].join(","));
        for room in [0, count - 1, count, count + 1] {
            sink.put(Case::new(STATEMENT, &[], &[text.as_bytes()], &[room]));
        }
    }
}

/// Overlaps, near misses at either end of the pattern, and bytes that are in it once, twice and not at all.
fn patterns(sink: &mut dyn Sink) {
    for (haystack, pattern) in [
        ("aaaaa", "aa"),
        ("ababab", "abab"),
        ("abcabcabc", "abc"),
        ("xbcabcabx", "abc"),
        ("aabaabaaab", "aab"),
        ("abbabbbab", "bab"),
        ("xyzxyz", "q"),
        ("abc", "abc"),
        ("abc", "abcd"),
        ("abc", ""),
        ("", ""),
    ] {
        sink.put(Case::new(SEARCH, &[], &[haystack.as_bytes(), pattern.as_bytes()], &[6]));
    }
}

fn place_rooms(sink: &mut dyn Sink) {
    for count in [0, 1, 3] {
        for room in 0..5 {
            sink.put(Case::new(SEARCH, &[], &[&vec![b'a'; count], b"a"], &[room]));
        }
    }
}
