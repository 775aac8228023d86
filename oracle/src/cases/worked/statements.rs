//! Sections 6 and 7: statements, and pattern search.

use super::making::*;
use super::Worked;

pub fn all() -> Vec<Worked> {
    let parts = [lists(), words(), left_out(), hints(), rooms(), kept_by_format(), keys(), searches()];
    parts.into_iter().flatten().collect()
}

/// A statement that is short enough to be its own name.
fn said(text: &str) -> Worked {
    statement(text, text, 8)
}

/// The same by the format.
fn by_format(text: &str) -> Worked {
    columns(text, text, 8)
}

fn lists() -> Vec<Worked> {
    vec![
        heading("6.1 The columns of a statement"),
        said("CREATE TABLE t (a INT, b TEXT)"),
        said("(a INT"),
        said(")("),
        said("x) (a INT) (b TEXT)"),
        said("(a DECIMAL(10,2), b BLOB)"),
        statement("bytes 9 to 13 are blanks", "(\ta\nINT\r,\u{b}b\u{c}TEXT )", 8),
    ]
}

fn words() -> Vec<Worked> {
    vec![
        heading("6.2 Words in any case, and bytes above 127"),
        said("(a integer, b Text, c bLoB)"),
        statement("a name of bytes above 127, an INT", b"(\xe1\x9e\x80 INT)", 8),
    ]
}

fn left_out() -> Vec<Worked> {
    vec![
        heading("6.3 Pieces that give no hint"),
        said("(a INT, , b TEXT)"),
        said("(id INTEGER PRIMARY KEY, a TEXT)"),
        said("(key_of_primary integer, a TEXT)"),
        said("(a, primary key (a), Unique (a), check (a), foreign key (a), constraint c)"),
        said("(check_day INT, day_check INT)"),
    ]
}

fn hints() -> Vec<Worked> {
    vec![
        heading("6.4 The second word decides"),
        said("(a INT, b INTEGER, c INTX)"),
        said("(a BOOLEAN, b TINYINT, c SMALLINT, d BIGINT, e MEDIUMINT)"),
        said("(a BOOLEANS, b TINYINTS, c BIGINT(8))"),
        said("(a TEXT, b CHAR(3), c VARCHAR, d NCHAR, e NVARCHAR, f CLOB)"),
        said("(a REAL, b FLOAT, c DOUBLE, d NUMERIC, e DECIMAL(9))"),
        said("(a BLOB, b BINARY, c VARBINARY, d BLOBS)"),
        said("(a, b DATE, c \"INT\")"),
    ]
}

/// A column of any type in so many bytes, of which 65,533 stand before it.
fn long(bytes: usize) -> Vec<u8> {
    joined(&[&times(b'x', 65_533), &"286129", &times(b'x', bytes - 65_536)])
}

/// So many columns.
fn many(columns: usize) -> String {
    format!("({})", vec!["a"; columns].join(","))
}

fn rooms() -> Vec<Worked> {
    vec![
        heading("6.5 Room for hints"),
        statement("two hints, room for 2", "(a INT, b TEXT)", 2),
        statement("two hints, room for 1", "(a INT, b TEXT)", 1),
        columns("by the format, a key and a text, room for 2", "(a INTEGER PRIMARY KEY, b TEXT)", 2),
        columns("by the format, a key and a text, room for 1", "(a INTEGER PRIMARY KEY, b TEXT)", 1),
        heading("6.6 The checks of a statement"),
        statement("65536 bytes", long(65_536), 1),
        statement("3: 65537 bytes", long(65_537), 1),
        statement("3 before 7: 65537 bytes, no list", times(b'x', 65_537), 1),
        statement("1: no column", "()", 1),
        statement("1 before 9: 511 columns, room for none", many(511), 0),
        statement("9: 510 columns, room for none", many(510), 0),
        columns("by the format, 3: 65537 bytes", long(65_537), 1),
        columns("by the format, 7: the last ) before the first (", ")(", 1),
        columns("by the format, 1: a constraint and an empty piece", "(CHECK (a), )", 1),
    ]
}

fn kept_by_format() -> Vec<Worked> {
    vec![
        heading("6.7 By the format: pieces that give no hint"),
        by_format("(a INT, , b TEXT)"),
        by_format("(check_day INT, day_check INT)"),
        by_format("(primary_mail TEXT, unique1 INT, foreign_ REAL, constraint_id BLOB)"),
        by_format("(KEY INT, PRIMARY TEXT, \"PRIMARY\" REAL)"),
        by_format("(a INT, b INT, PRIMARY KEY(a,b))"),
        by_format("(a INT, CHECK(a))"),
        by_format("(a INT, CHECK (a))"),
        by_format("(a, primary key (a), Unique(a), check(a), foreign key(a), constraint c)"),
        by_format("(CHECK) INT, (CHECK) TEXT)"),
        by_format("(key_of_primary integer, a TEXT)"),
    ]
}

fn keys() -> Vec<Worked> {
    vec![
        heading("6.8 By the format: the key"),
        by_format("(id INTEGER PRIMARY KEY, a TEXT, b REAL)"),
        by_format("(a TEXT, id INTEGER PRIMARY KEY, b REAL)"),
        by_format("(a TEXT, b REAL, id INTEGER PRIMARY KEY)"),
        by_format("(a INTEGER PRIMARY KEY, b INTEGER PRIMARY KEY)"),
        by_format("(id integer primary key, a Integer Primary Key desc)"),
        by_format("(id INTEGER PRIMARY KEY DESC, a TEXT)"),
        by_format("(id INTEGER PRIMARY KEY ASC, a TEXT)"),
        by_format("(id INTEGER PRIMARY KEY ASC DESC, a TEXT)"),
        by_format("(id INTEGER PRIMARY KEY AUTOINCREMENT, a TEXT)"),
        by_format("(id INTEGER PRIMARY KEY DESCENDING, a TEXT)"),
        by_format("(id INT PRIMARY KEY, a TEXT)"),
        by_format("(id INTEGER(8) PRIMARY KEY, a INTEGERS PRIMARY KEY)"),
        by_format("(id INTEGER NOT NULL PRIMARY KEY, a TEXT)"),
        by_format("(id INTEGER PRIMARY KEYS, a INTEGER PRIMARY)"),
        by_format("(id TEXT PRIMARY KEY, INTEGER PRIMARY KEY)"),
        columns(
            "bytes 9 to 13 between the words",
            "(id\tINTEGER\nPRIMARY\u{b}\u{c}KEY\rDESC,a\tINTEGER\rPRIMARY\nKEY)",
            8,
        ),
    ]
}

fn searches() -> Vec<Worked> {
    vec![
        heading("7.1 Pattern search"),
        search("a in aaa, room for 3", "616161", "61", 3),
        search("a in aaa, room for 2", "616161", "61", 2),
        search("aa in aaaa: overlapping places", "61616161", "6161", 4),
        search("a pattern longer than the haystack", "6162", "616263", 4),
    ]
}
