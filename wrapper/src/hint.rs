//! Hints.

use crate::door::{self, Answer};
use crate::{Refusal, MOST_COLUMNS};
use std::error::Error;
use std::fmt;
use std::str::FromStr;

/// What a column is expected to hold; a NULL suits every hint. Its number is the hint's code.
///
/// A hint is read from its letter or its code:
///
/// ```
/// # use phsarodil::Hint;
/// assert_eq!("T".parse(), Ok(Hint::Text));
/// assert_eq!("2".parse(), Ok(Hint::Text));
/// assert!("TEXT".parse::<Hint>().is_err());
/// assert_eq!(Hint::try_from(2), Ok(Hint::Text));
/// assert!(Hint::try_from(6).is_err());
/// ```
#[derive(Clone, Copy, Debug, PartialEq, Eq, Hash)]
pub enum Hint {
    /// `I`: an integer. A REAL column's whole values are stored as integers and suit this hint.
    Integer = 0,
    /// `R`: a real that is stored as one; see [`Hint::Integer`].
    Real = 1,
    /// `T`: a text.
    Text = 2,
    /// `B`: a blob.
    Blob = 3,
    /// `N`: nothing but NULL, as in the place of an INTEGER PRIMARY KEY.
    Null = 4,
    /// `A`: anything.
    Any = 5,
}

impl Hint {
    /// The hints of a CREATE TABLE statement, which is meant to be ASCII: one for each piece between commas.
    ///
    /// That is one for each column of a plain table, and not of every table: see `phs_from_create_sql` in
    /// `include/phsarodil.h`, and compare their number with the table's columns. An INTEGER PRIMARY KEY gets none,
    /// though its records hold a NULL there: add [`Hint::Null`] in its place.
    ///
    /// ```
    /// # use phsarodil::Hint::{self, Any, Integer, Real, Text};
    /// assert_eq!(Hint::of_statement(b"t(plot INT, note TEXT)"), Ok(vec![Integer, Text]));
    /// // The comma in brackets makes a hint of its own,
    /// assert_eq!(Hint::of_statement(b"t(price DECIMAL(10,2), n INT)"), Ok(vec![Real, Any, Integer]));
    /// // and a name that begins with a constraint's word loses its column.
    /// assert_eq!(Hint::of_statement(b"t(check_day TEXT, n INT)"), Ok(vec![Integer]));
    /// ```
    ///
    /// # Errors
    ///
    /// [`Refusal::TooLarge`] for more than [`LARGEST_STATEMENT`](crate::LARGEST_STATEMENT) bytes, [`Refusal::NoColumnList`], and
    /// [`Refusal::ColumnCount`] for the number of hints that come of it.
    pub fn of_statement(statement: &[u8]) -> Result<Vec<Hint>, Refusal> {
        read_statement(door::from_create_sql, statement)
    }

    /// The hints of a CREATE TABLE statement by the format, which is meant to be ASCII: one for each piece between commas that is no
    /// constraint of the table. With the hints of [`Hint::of_statement`], which leave a key out, a scan finds no row that holds all
    /// columns.
    ///
    /// That is one for each column of a plain table, and not of every table: see `phs_column_hints` in `include/phsarodil.h`, and compare
    /// their number with the table's columns. An INTEGER PRIMARY KEY gets [`Hint::Null`], since its records hold a NULL there, if these
    /// words stand right behind its name and no DESC behind them. For `id INTEGER NOT NULL PRIMARY KEY` and for `PRIMARY KEY(id)` put the
    /// null in by hand. Free space of a table whose key is the first column is carved with all hints and with those behind the key
    /// ([`Rebuilding`](crate::Rebuilding)).
    ///
    /// ```
    /// # use phsarodil::Hint::{self, Any, Integer, Null, Real, Text};
    /// assert_eq!(Hint::of_statement_by_format(b"t(plot INT, note TEXT)"), Ok(vec![Integer, Text]));
    /// // A key gets the null in its place,
    /// assert_eq!(Hint::of_statement_by_format(b"t(id INTEGER PRIMARY KEY, n INT)"), Ok(vec![Null, Integer]));
    /// // a name that begins with a constraint's word is that of a column,
    /// assert_eq!(Hint::of_statement_by_format(b"t(check_day TEXT, n INT)"), Ok(vec![Text, Integer]));
    /// // and a comma in brackets makes a hint of its own.
    /// assert_eq!(Hint::of_statement_by_format(b"t(price DECIMAL(10,2), n INT)"), Ok(vec![Real, Any, Integer]));
    /// ```
    ///
    /// # Errors
    ///
    /// As [`Hint::of_statement`], but that a key alone is a column.
    pub fn of_statement_by_format(statement: &[u8]) -> Result<Vec<Hint>, Refusal> {
        read_statement(door::column_hints, statement)
    }

    /// Whether a serial type suits the hint.
    pub fn suits(self, kind: u64) -> bool {
        door::is_compatible(self as u8, kind) == (0, [1])
    }
}

/// The hints that a reading gives of a statement.
fn read_statement(
    reading: fn(&[u8], &mut [u8]) -> Answer<1>,
    statement: &[u8],
) -> Result<Vec<Hint>, Refusal> {
    let mut codes = [0; MOST_COLUMNS];
    let (number, [written]) = reading(statement, &mut codes);
    Refusal::check(number)?;
    Ok(codes[..written as usize]
        .iter()
        .map(|&code| Hint::try_from(code).expect("the library writes codes from 0 to 5"))
        .collect())
}

impl TryFrom<u8> for Hint {
    type Error = UnknownHint;

    fn try_from(code: u8) -> Result<Hint, UnknownHint> {
        Ok(match code {
            0 => Hint::Integer,
            1 => Hint::Real,
            2 => Hint::Text,
            3 => Hint::Blob,
            4 => Hint::Null,
            5 => Hint::Any,
            _ => return Err(UnknownHint),
        })
    }
}

impl FromStr for Hint {
    type Err = UnknownHint;

    fn from_str(name: &str) -> Result<Hint, UnknownHint> {
        Ok(match name {
            "I" | "0" => Hint::Integer,
            "R" | "1" => Hint::Real,
            "T" | "2" => Hint::Text,
            "B" | "3" => Hint::Blob,
            "N" | "4" => Hint::Null,
            "A" | "5" => Hint::Any,
            _ => return Err(UnknownHint),
        })
    }
}

/// What was to be read as a hint is none.
#[derive(Clone, Copy, Debug, PartialEq, Eq, Hash)]
pub struct UnknownHint;

impl fmt::Display for UnknownHint {
    fn fmt(&self, f: &mut fmt::Formatter<'_>) -> fmt::Result {
        f.write_str("a hint is a letter of IRTBNA or a digit from 0 to 5")
    }
}

impl Error for UnknownHint {}

#[cfg(test)]
mod tests {
    use super::*;
    use crate::{scan, LARGEST_STATEMENT};

    #[test]
    fn what_suits() {
        let suiting = |hint: Hint| {
            (0..=13)
                .filter(|&kind| hint.suits(kind))
                .collect::<Vec<u64>>()
        };
        assert_eq!(suiting(Hint::Integer), [0, 1, 2, 3, 4, 5, 6, 8, 9]);
        assert_eq!(suiting(Hint::Real), [0, 7]);
        assert_eq!(suiting(Hint::Text), [0, 13]);
        assert_eq!(suiting(Hint::Blob), [0, 12]);
        assert_eq!(suiting(Hint::Null), [0]);
        assert_eq!(suiting(Hint::Any).len(), 14);
    }

    #[test]
    fn letters_and_codes() {
        for (letter, code) in "IRTBNA".chars().zip(0..) {
            let hint: Hint = letter.to_string().parse().unwrap();
            assert_eq!(hint as u8, code);
            assert_eq!(code.to_string().parse(), Ok(hint));
            assert_eq!(Hint::try_from(code), Ok(hint));
        }
        assert_eq!(Hint::try_from(6), Err(UnknownHint));
        for name in ["", "i", "6", "IT", "TEXT"] {
            assert_eq!(name.parse::<Hint>(), Err(UnknownHint));
        }
    }

    #[test]
    fn of_statements() {
        assert_eq!(
            Hint::of_statement(b"CREATE TABLE r (plot INTEGER, depth REAL, note TEXT, x)"),
            Ok(vec![Hint::Integer, Hint::Real, Hint::Text, Hint::Any])
        );
        assert_eq!(Hint::of_statement(b")("), Err(Refusal::NoColumnList));
        assert_eq!(
            Hint::of_statement(b"(id INTEGER PRIMARY KEY)"),
            Err(Refusal::ColumnCount)
        );
        let most = format!("({})", vec!["a INT"; MOST_COLUMNS].join(","));
        assert_eq!(
            Hint::of_statement(most.as_bytes()).unwrap().len(),
            MOST_COLUMNS
        );
    }

    /// The examples of `phs_from_create_sql` in the header, and a comment.
    #[test]
    fn of_the_statements_in_the_header() {
        let letters = |statement: &str| -> String {
            let hints = Hint::of_statement(statement.as_bytes()).unwrap();
            hints
                .iter()
                .map(|&h| b"IRTBNA"[h as usize] as char)
                .collect()
        };
        assert_eq!(letters("t(plot INT, note TEXT)"), "IT");
        assert_eq!(letters("t(price DECIMAL(10,2), n INT)"), "RAI");
        assert_eq!(letters("t(a INT, b INT, PRIMARY KEY(a, b))"), "IIA");
        assert_eq!(letters("t(a TEXT DEFAULT 'x,y', n INT)"), "TAI");
        assert_eq!(letters("t(check_day TEXT, n INT)"), "I");
        assert_eq!(letters("t(primary_mail TEXT, n INT)"), "I");
        assert_eq!(letters("t(\"my note\" TEXT, n INT)"), "AI");
        assert_eq!(letters("t(id INTEGER PRIMARY KEY, n INT)"), "I");
        assert_eq!(letters("t(a INT, /* x, y */ b TEXT)"), "IAA");
    }

    type Reading = fn(&[u8]) -> Result<Vec<Hint>, Refusal>;

    const READINGS: [Reading; 2] = [Hint::of_statement_by_format, Hint::of_statement];

    #[test]
    fn of_statements_in_either_reading() {
        let most = format!("({})", vec!["a INT"; MOST_COLUMNS].join(","));
        let more = most.replacen('(', "(a,", 1);
        let largest = format!("(a{})", " ".repeat(LARGEST_STATEMENT - 3));
        for read in READINGS {
            assert_eq!(
                read(b"CREATE TABLE r (plot INTEGER, depth REAL, note TEXT, x)"),
                Ok(vec![Hint::Integer, Hint::Real, Hint::Text, Hint::Any])
            );
            assert_eq!(read(b")("), Err(Refusal::NoColumnList));
            assert_eq!(read(b"( , )"), Err(Refusal::ColumnCount));
            assert_eq!(read(most.as_bytes()), Ok(vec![Hint::Integer; MOST_COLUMNS]));
            assert_eq!(read(more.as_bytes()), Err(Refusal::ColumnCount));
            assert_eq!(read(largest.as_bytes()), Ok(vec![Hint::Any]));
            let larger = [largest.as_bytes(), b" "].concat();
            assert_eq!(read(&larger), Err(Refusal::TooLarge));
        }
    }

    #[test]
    fn of_a_key_alone() {
        let readings = READINGS.map(|read| read(b"(id INTEGER PRIMARY KEY)"));
        assert_eq!(readings, [Ok(vec![Hint::Null]), Err(Refusal::ColumnCount)]);
    }

    /// The examples of the header, with the hints of either reading, and a comment.
    #[test]
    fn of_the_statements_in_the_header_in_either_reading() {
        for (statement, hints, as_rust) in [
            ("t(plot INT, note TEXT)", "IT", "IT"),
            ("t(id INTEGER PRIMARY KEY, n INT)", "NI", "I"),
            ("t(id INTEGER PRIMARY KEY DESC, n INT)", "II", "I"),
            ("t(id INT PRIMARY KEY, n INT)", "II", "II"),
            ("t(check_day TEXT, n INT)", "TI", "I"),
            ("t(primary_mail TEXT, n INT)", "TI", "I"),
            ("t(price DECIMAL(10,2), n INT)", "RAI", "RAI"),
            ("t(a INT, b INT, PRIMARY KEY(a, b))", "IIA", "IIA"),
            ("t(a TEXT DEFAULT 'x,y', n INT)", "TAI", "TAI"),
            ("t(\"my note\" TEXT, n INT)", "AI", "AI"),
            ("t(id INTEGER NOT NULL PRIMARY KEY, n)", "IA", "A"),
            ("t(id INTEGER, n, PRIMARY KEY(id))", "IA", "IA"),
            ("t(a INT, /* x, y */ b TEXT)", "IAA", "IAA"),
        ] {
            let letters = READINGS.map(|read| -> String {
                let hints = read(statement.as_bytes()).unwrap();
                let letter = |hint: &Hint| b"IRTBNA"[*hint as usize] as char;
                hints.iter().map(letter).collect()
            });
            assert_eq!(letters, [hints, as_rust], "{statement}");
        }
    }

    /// The record has a NULL in the key's place, and then 7.
    #[test]
    fn a_record_with_a_key_is_found_with_its_statement() {
        let found = READINGS.map(|read| {
            let hints = read(b"t(id INTEGER PRIMARY KEY, n INT)").unwrap();
            scan(&[3, 0, 1, 7], &hints, 0).unwrap().count()
        });
        assert_eq!(found, [1, 0]);
    }
}
