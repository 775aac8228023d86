//! Statements that sqlite3 takes, but for some: without commas in brackets, quotes and comments.

use super::sqlite::NAME;
use crate::random::Random;

/// In a piece the column's name.
const COLUMN: char = '#';
/// That of a column among others, which none of them has.
const OWN: &str = "own";

/// Some are keywords that may be names, and some begin with a constraint's word.
const NAMES: [&str; 27] = [
    "a",
    "b",
    "id",
    "plot",
    "value",
    "note",
    "KEY",
    "check_day",
    "primary_mail",
    "constraint_id",
    "unique1",
    "foreign_",
    "Checked",
    "UNIQUELY",
    "primarykey",
    "INTEGER",
    "rowid",
    "LEFT",
    "DESC",
    "ASC",
    "REPLACE",
    "TEMP",
    "TEXT",
    "_x",
    "x$1",
    "café",
    "CONSTRAINTS",
];

const TYPES: [&str; 27] = [
    "",
    "",
    "INTEGER",
    "INTEGER",
    "INT",
    "TEXT",
    "TEXT",
    "REAL",
    "BLOB",
    "NUMERIC",
    "DECIMAL(10)",
    "VARCHAR(20)",
    "BIGINT",
    "BOOLEAN",
    "DATE",
    "ANY",
    "INTEGER(8)",
    "INTEGER UNSIGNED",
    "UNSIGNED INTEGER",
    "UNSIGNED BIG INT",
    "DOUBLE PRECISION",
    "NATIVE CHARACTER(70)",
    "INTEGERS",
    "XINTEGER",
    "INTEGER KEY",
    "KEY",
    "DESC",
];

const STRICT_TYPES: [&str; 5] = ["INT", "INTEGER", "REAL", "TEXT", "ANY"];

/// The type of which a column becomes the row id's alias.
const INTEGER: &str = "INTEGER";

/// Behind a column's type; # is its name.
pub const CONSTRAINTS: [&str; 18] = [
    "NOT NULL",
    "NULL",
    "UNIQUE",
    "DEFAULT 1",
    "DEFAULT -1.5",
    "DEFAULT (1 + 1)",
    "DEFAULT CURRENT_TIME",
    "DEFAULT KEY",
    "CHECK (# > 0)",
    "CHECK(#)",
    "COLLATE NOCASE",
    "REFERENCES p",
    "REFERENCES p(INTEGER)",
    "REFERENCES p(x) ON DELETE CASCADE DEFERRABLE INITIALLY DEFERRED",
    "NOT NULL ON CONFLICT ROLLBACK",
    "UNIQUE ON CONFLICT IGNORE",
    "CONSTRAINT c NOT NULL",
    "CONSTRAINT PRIMARYS CHECK (# > 0)",
];

/// Behind PRIMARY KEY.
const BEHIND: [&str; 18] = [
    "",
    "",
    "",
    "ASC",
    "DESC",
    "DESC",
    "AUTOINCREMENT",
    "ASC AUTOINCREMENT",
    "ON CONFLICT REPLACE",
    "ASC ON CONFLICT FAIL",
    "DESC ON CONFLICT FAIL",
    "ON CONFLICT FAIL AUTOINCREMENT",
    "NOT NULL",
    "DESC NOT NULL",
    "CHECK (# > 0)",
    "CONSTRAINT DESC",
    "UNIQUE",
    "DEFAULT 5",
];

/// Of a table, on the column #.
const OF_TABLES: [&str; 12] = [
    "UNIQUE(#)",
    "UNIQUE (#) ON CONFLICT FAIL",
    "CHECK(# > 0)",
    "CHECK (#)",
    "CHECK((#) > 0)",
    "FOREIGN KEY(#) REFERENCES p(x)",
    "FOREIGN KEY (#) REFERENCES p ON DELETE SET NULL",
    "CONSTRAINT c UNIQUE (#)",
    "CONSTRAINT c CHECK(#)",
    "CONSTRAINT c",
    "CONSTRAINT k FOREIGN KEY(#) REFERENCES p",
    "CHECK (#) UNIQUE(#)",
];

const BEGINNINGS: [&str; 7] = [
    "CREATE TABLE ",
    "CREATE TABLE ",
    "CREATE TABLE ",
    "CREATE TABLE IF NOT EXISTS ",
    "CREATE TEMP TABLE ",
    "CREATE TEMPORARY TABLE ",
    "CREATE TABLE main.",
];

/// A byte 11 is a blank behind another one alone.
const BLANKS: [&str; 9] = ["  ", "\t", "\n", "\r\n", "\u{c}", " \u{b}", "\r", "\n\n    ", " \t\u{b}\u{c}\n"];

/// A column by its name and its type.
type Column = (&'static str, &'static str);

/// Columns of these types, each of another name.
fn columns(random: &mut Random, types: &[&'static str]) -> Vec<Column> {
    let mut names = NAMES.to_vec();
    let mut column = |random: &mut Random| (names.swap_remove(random.below(names.len())), random.pick(types));
    (0..1 + random.below(7)).map(|_| column(random)).collect()
}

/// A column's piece, with constraints behind its type.
fn piece(random: &mut Random, (name, kind): Column) -> String {
    let mut words = vec![name, kind];
    while random.once_in(4) {
        words.push(random.pick(&CONSTRAINTS));
    }
    joined(&words, name)
}

/// The piece of a column that is the key. Only a type that makes no alias may have constraints before the key's words.
fn key(random: &mut Random, (name, kind): Column) -> String {
    let before = if kind != INTEGER && random.once_in(3) { random.pick(&CONSTRAINTS) } else { "" };
    joined(&[name, kind, before, "PRIMARY KEY", random.pick(&BEHIND)], name)
}

/// Words that are there, with the name in place of #.
fn joined(words: &[&str], name: &str) -> String {
    let words: Vec<&str> = words.iter().copied().filter(|word| !word.is_empty()).collect();
    words.join(" ").replace(COLUMN, name)
}

/// Constraints of a table, on any of its columns.
fn of_table(random: &mut Random, columns: &[Column]) -> Vec<String> {
    let count = random.below(6).saturating_sub(2);
    (0..count).map(|_| random.pick(&OF_TABLES).replace(COLUMN, random.pick(columns).0)).collect()
}

/// A statement with a key in any of its columns, or a PRIMARY KEY of the table on a column that it does not make an alias, or neither.
pub fn plain(random: &mut Random) -> String {
    let strict = random.once_in(10);
    let columns = columns(random, if strict { &STRICT_TYPES } else { &TYPES });
    let mut pieces: Vec<String> = columns.iter().map(|&column| piece(random, column)).collect();
    let mut constraints = of_table(random, &columns);
    let (at, way) = (random.below(columns.len()), random.below(8));
    let (name, kind) = columns[at];
    match way {
        0 | 1 => pieces[at] = key(random, columns[at]),
        2 | 3 => pieces[at] = key(random, (name, INTEGER)),
        4 if kind != INTEGER => constraints.push(format!("PRIMARY KEY({name})")),
        _ => {}
    }
    // A key that is no alias may stand in a table without a row id as well.
    let no_alias = kind != INTEGER && matches!(way, 0 | 1 | 4) || pieces[at].contains("PRIMARY KEY DESC");
    let end = match (strict, no_alias && random.once_in(4)) {
        (true, true) => ") STRICT, WITHOUT ROWID",
        (true, false) => ") STRICT",
        (false, true) => ") WITHOUT ROWID",
        (false, false) => ")",
    };
    statement(random, &[pieces, constraints].concat(), end)
}

/// A statement with that column among others, of which none is a key, and with constraints of the table, that one the last.
pub fn among(random: &mut Random, column: &str, constraint: &str, end: &str) -> String {
    let columns = columns(random, &TYPES);
    let mut pieces: Vec<String> = columns.iter().map(|&column| piece(random, column)).collect();
    pieces.insert(random.below(pieces.len() + 1), column.replace(COLUMN, OWN));
    pieces.extend(of_table(random, &columns));
    pieces.extend((!constraint.is_empty()).then(|| constraint.replace(COLUMN, OWN)));
    statement(random, &pieces, end)
}

fn statement(random: &mut Random, pieces: &[String], end: &str) -> String {
    let text = format!("{}{NAME}({}{end}", random.pick(&BEGINNINGS), pieces.join(","));
    let (spread, cased) = (random.below(3), random.below(3));
    let mut made = String::new();
    for c in text.chars() {
        let around = matches!(c, '(' | ')' | ',') && spread > 0;
        if around && random.once_in(4) {
            made.push_str(random.pick(&BLANKS));
        }
        match c {
            ' ' if spread == 2 && random.once_in(2) => made.push_str(random.pick(&BLANKS)),
            _ if cased == 1 || cased == 2 && random.once_in(2) => made.push(c.to_ascii_lowercase()),
            _ => made.push(c),
        }
        if around && random.once_in(3) {
            made.push_str(random.pick(&[" ", "\n", "\n\t"]));
        }
    }
    made
}
