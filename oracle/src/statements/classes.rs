//! Statements of which the hints by the format and sqlite3 say something else, by the rule's own words.

use super::making::{among, CONSTRAINTS};
use super::sqlite::{Column, Table};
use super::Hints;
use crate::random::Random;

const INTEGER: u64 = 0;
const ANY: u64 = 5;

/// What the hints, and sqlite3, say of a statement.
#[derive(Clone, Copy)]
pub enum Parts {
    /// As many hints as columns and none Null, that of the alias the one named.
    AliasAs(u64),
    /// As many hints as columns, one of them Null, and no alias.
    NullAlone,
    /// A hint for each column, the generated ones too, and Null at the alias alone.
    Generated,
    /// A hint more than columns, and no Null but at the alias.
    OneMore,
    /// A refusal. As sqlite3 keeps it the statement has as many hints as columns.
    Refused(u64),
    /// A refusal, also as sqlite3 keeps the statement.
    RefusedAsKept(u64),
}

pub struct Class {
    pub what: &'static str,
    pub smallest: fn() -> String,
    /// Others, among other columns.
    pub another: Option<fn(&mut Random) -> String>,
    pub parts: Parts,
}

/// Behind a key's words, where it makes an alias.
const BEHIND: [&str; 5] = ["", " ASC", " AUTOINCREMENT", " NOT NULL", " CHECK (# > 0)"];

const OF_A_KEY: Class = Class { what: "", smallest: String::new, another: None, parts: Parts::AliasAs(INTEGER) };

pub const CLASSES: &[Class] = &[
    Class {
        what: "a constraint between INTEGER and PRIMARY",
        smallest: || of("a INTEGER NOT NULL PRIMARY KEY"),
        another: Some(|random| {
            let (between, behind) = (random.pick(&CONSTRAINTS), random.pick(&BEHIND));
            among(random, &format!("# INTEGER {between} PRIMARY KEY{behind}"), "", ")")
        }),
        ..OF_A_KEY
    },
    Class {
        what: "a name of the key's constraint",
        smallest: || of("a INTEGER CONSTRAINT k PRIMARY KEY"),
        another: Some(|random| {
            let (name, behind) = (random.pick(&["k", "KEY", "pk CONSTRAINT k"]), random.pick(&BEHIND));
            among(random, &format!("# INTEGER CONSTRAINT {name} PRIMARY KEY{behind}"), "", ")")
        }),
        ..OF_A_KEY
    },
    Class {
        what: "GENERATED ALWAYS between, which sqlite3 takes off the type",
        smallest: || of("a INTEGER GENERATED ALWAYS PRIMARY KEY"),
        another: Some(|random| {
            let behind = random.pick(&BEHIND);
            among(random, &format!("# INTEGER GENERATED ALWAYS PRIMARY KEY{behind}"), "", ")")
        }),
        ..OF_A_KEY
    },
    Class {
        what: "a PRIMARY KEY of the table, on an INTEGER column",
        smallest: || of("a INTEGER,PRIMARY KEY(a)"),
        another: Some(|random| {
            let constraint = if random.once_in(2) { "" } else { random.pick(&CONSTRAINTS) };
            let before = random.pick(&["", "CONSTRAINT k ", "CHECK(# > 0) ", "UNIQUE (#) "]);
            let inside = random.pick(&["#", "# ASC", "# DESC", "# AUTOINCREMENT", "# COLLATE NOCASE"]);
            among(random, &format!("# INTEGER {constraint}"), &format!("{before}PRIMARY KEY({inside})"), ")")
        }),
        ..OF_A_KEY
    },
    Class {
        what: "a table without a row id",
        smallest: || format!("{} WITHOUT ROWID", of("a INTEGER PRIMARY KEY")),
        another: Some(|random| {
            let behind = random.pick(&["", " ASC", " NOT NULL", " CHECK (# > 0)"]);
            among(random, &format!("# INTEGER PRIMARY KEY{behind}"), "", ") WITHOUT ROWID")
        }),
        parts: Parts::NullAlone,
    },
    Class {
        what: "a generated column",
        smallest: || of("a,b AS(a)"),
        another: Some(|random| {
            let kind = random.pick(&["", " INT", " TEXT GENERATED ALWAYS", " GENERATED ALWAYS"]);
            let end = random.pick(&["", " VIRTUAL", " STORED", " STORED NOT NULL"]);
            among(random, &format!("#{kind} AS (1 + 1){end}"), "", ")")
        }),
        parts: Parts::Generated,
    },
    Class {
        what: "a byte order mark before INTEGER",
        smallest: || of("a \u{feff}INTEGER PRIMARY KEY"),
        another: Some(|random| {
            let behind = random.pick(&BEHIND);
            among(random, &format!("# \u{feff}INTEGER PRIMARY KEY{behind}"), "", ")")
        }),
        parts: Parts::AliasAs(ANY),
    },
    Class {
        what: "a byte order mark before DESC",
        smallest: || of("a INTEGER PRIMARY KEY \u{feff}DESC"),
        another: Some(|random| among(random, "# INTEGER PRIMARY KEY \u{feff}DESC", "", ")")),
        parts: Parts::NullAlone,
    },
    Class {
        what: "a byte order mark before a constraint",
        smallest: || of("a,\u{feff}CHECK(a)"),
        another: Some(|random| {
            let constraint = random.pick(&["CHECK(#)", "UNIQUE (#)", "FOREIGN KEY(#) REFERENCES p", "CONSTRAINT c"]);
            among(random, "#", &format!("\u{feff}{constraint}"), ")")
        }),
        parts: Parts::OneMore,
    },
    Class { what: "a comma in brackets", smallest: || of("a DECIMAL(9,2)"), parts: Parts::OneMore, ..OF_A_KEY },
    Class { what: "a comma in a text", smallest: || of("a DEFAULT ','"), parts: Parts::OneMore, ..OF_A_KEY },
    Class { what: "a comma in a comment", smallest: || of("a/*,*/"), parts: Parts::OneMore, ..OF_A_KEY },
    Class {
        what: "a type in quotes",
        smallest: || of("a \"INTEGER\" PRIMARY KEY"),
        parts: Parts::AliasAs(ANY),
        ..OF_A_KEY
    },
    Class {
        what: "a name in quotes, with a blank",
        smallest: || of("\"a b\" INTEGER PRIMARY KEY"),
        parts: Parts::AliasAs(ANY),
        ..OF_A_KEY
    },
    Class {
        what: "a name in quotes, with no blank behind it",
        smallest: || of("\"a\"INTEGER PRIMARY KEY"),
        parts: Parts::AliasAs(ANY),
        ..OF_A_KEY
    },
    Class {
        what: "a name in quotes, with no blank before it",
        smallest: || of("a,CONSTRAINT[c]UNIQUE(a)"),
        parts: Parts::OneMore,
        ..OF_A_KEY
    },
    Class { what: "a comment behind KEY", smallest: || of("a INTEGER PRIMARY KEY/**/"), ..OF_A_KEY },
    Class {
        what: "a comment behind DESC",
        smallest: || of("a INTEGER PRIMARY KEY DESC/**/"),
        parts: Parts::NullAlone,
        ..OF_A_KEY
    },
    Class {
        what: "a comment behind a constraint's word",
        smallest: || of("a,CHECK/**/(a)"),
        parts: Parts::OneMore,
        ..OF_A_KEY
    },
    Class {
        what: "AS SELECT, which has no list",
        smallest: || "CREATE TABLE @ AS SELECT 1".into(),
        another: Some(|random| {
            let columns: Vec<String> =
                (0..1 + random.below(6)).map(|i| format!("{} AS c{i}", random.below(9))).collect();
            format!("CREATE TABLE @ AS SELECT {}", columns.join(", "))
        }),
        parts: Parts::Refused(7),
    },
    Class {
        what: "more than 510 columns",
        smallest: || of(&(0..511).map(|i| format!("c{i}")).collect::<Vec<_>>().join(",")),
        parts: Parts::RefusedAsKept(1),
        ..OF_A_KEY
    },
    Class {
        what: "more than 65,536 bytes",
        smallest: || of(&format!("a{}", " ".repeat(65_520))),
        parts: Parts::RefusedAsKept(3),
        ..OF_A_KEY
    },
];

fn of(pieces: &str) -> String {
    format!("CREATE TABLE @({pieces})")
}

impl Parts {
    /// Whether hints and table part in this way. The hints are those of the statement as it was made, and as sqlite3 keeps it.
    pub fn hold(self, made: &Hints, kept: &Hints, table: &Table) -> bool {
        let count = table.columns.len();
        let same = made == kept;
        match (self, made) {
            (Parts::AliasAs(hint), Ok(hints)) => {
                let at = table.columns.iter().position(|column| *column == Column::Alias);
                same && hints.len() == count && nulls(hints) == 0 && at.is_some_and(|at| hints[at] == hint)
            }
            (Parts::NullAlone, Ok(hints)) => same && hints.len() == count && nulls(hints) == 1 && table.aliases() == 0,
            (Parts::Generated, Ok(hints)) => {
                let generated = table.columns.iter().any(|column| matches!(column, Column::Virtual | Column::Stored));
                same && generated && super::null_at_aliases(hints, table)
            }
            (Parts::OneMore, Ok(hints)) => same && hints.len() == count + 1 && nulls(hints) == 0,
            (Parts::Refused(number), Err(refusal)) => {
                *refusal == number && kept.as_ref().is_ok_and(|hints| super::null_at_aliases(hints, table))
            }
            (Parts::RefusedAsKept(number), Err(refusal)) => same && *refusal == number,
            _ => false,
        }
    }
}

fn nulls(hints: &[u64]) -> usize {
    hints.iter().filter(|hint| **hint == super::NULL).count()
}
