//! What sqlite3 has of tables: the columns, which of them is the row id's alias, the statement as it is kept, and a record.

use crate::rules::attempt::types;
use crate::rules::limits::Limits;
use crate::rules::varint::whole;
use crate::tablets::padding::cells;
use crate::tablets::{page_size, pages};
use std::collections::HashMap;
use std::fs::{self, File};
use std::path::Path;
use std::process::Command;
use std::{io, str};

/// In a statement the table's name, which is another for each.
pub const NAME: char = '@';

#[derive(Clone, Copy, Debug, PartialEq, Eq)]
pub enum Column {
    Plain,
    /// Read by the opcode Rowid.
    Alias,
    /// Generated, and not stored.
    Virtual,
    /// Generated and stored.
    Stored,
}

pub struct Table {
    pub kept: Vec<u8>,
    pub columns: Vec<Column>,
    /// The types of a row whose values are all 1. None where the record is not in a table's leaf of the file.
    pub record: Option<Vec<u64>>,
}

/// Lists the tables and their columns, has sqlite3 explain how each column is read, and inserts a row into each table.
const ASKING: &str = r#"
CREATE TEMP VIEW made AS
SELECT name, rootpage AS root, sql FROM main.sqlite_schema WHERE type = 'table' AND name NOT LIKE 'sqlite_%'
UNION ALL SELECT name, 0, sql FROM sqlite_temp_schema WHERE type = 'table';
SELECT 'table|' || name || '|' || root || '|' || hex(sql) FROM made;
SELECT 'column|' || made.name || '|' || hidden FROM made, pragma_table_xinfo(made.name) ORDER BY made.name, cid;
.output ask.sql
SELECT '.print read|' || made.name || '|' || cid || char(10) || 'EXPLAIN SELECT "' || c.name || '" FROM ' || made.name || ' NOT INDEXED;'
FROM made, pragma_table_xinfo(made.name) AS c WHERE hidden = 0;
SELECT 'INSERT INTO ' || made.name || '(' || group_concat('"' || c.name || '"') || ') VALUES (' || group_concat(1) || ');'
FROM made, pragma_table_xinfo(made.name) AS c WHERE hidden = 0 GROUP BY made.name;
.output
COMMIT;
BEGIN;
.read ask.sql
COMMIT;
"#;

/// The tables that statements make, in one database; none where sqlite3 does not take the statement.
pub fn tables(folder: &Path, statements: &[String]) -> io::Result<Vec<Option<Table>>> {
    let (db, script) = (folder.join("made.db"), folder.join("make.sql"));
    if db.exists() {
        fs::remove_file(&db)?;
    }
    let mut text = String::from(".mode list\n.explain off\nPRAGMA synchronous=OFF;\nBEGIN;\n");
    for (i, statement) in statements.iter().enumerate() {
        text.push_str(&format!("{};\n", named(statement, i)));
    }
    fs::write(&script, text + ASKING)?;
    let said = Command::new("sqlite3").arg("made.db").current_dir(folder).stdin(File::open(script)?).output()?;
    let mut tables = listed(str::from_utf8(&said.stdout).map_err(io::Error::other)?, &fs::read(&db)?);
    Ok((0..statements.len()).map(|i| tables.remove(&name(i))).collect())
}

fn name(i: usize) -> String {
    format!("t{i}")
}

pub fn named(statement: &str, i: usize) -> String {
    statement.replace(NAME, &name(i))
}

/// The tables by name, as they are printed and as they stand in the file.
fn listed(printed: &str, db: &[u8]) -> HashMap<String, Table> {
    let mut tables: HashMap<String, Table> = HashMap::new();
    let mut read = None;
    for line in printed.lines() {
        match line.split('|').collect::<Vec<_>>()[..] {
            ["table", name, root, sql] => {
                let record = root.parse().ok().and_then(|root| record(db, root));
                tables.insert(name.into(), Table { kept: unhex(sql), columns: Vec::new(), record });
            }
            ["column", name, hidden] => {
                let column = match hidden {
                    "2" => Column::Virtual,
                    "3" => Column::Stored,
                    _ => Column::Plain,
                };
                tables.entry(name.into()).and_modify(|table| table.columns.push(column));
            }
            ["read", name, column] => read = column.parse::<usize>().ok().map(|column| (name, column)),
            [_, "Rowid", ..] => {
                if let Some((table, column)) = read.and_then(|(name, column)| Some((tables.get_mut(name)?, column))) {
                    table.columns[column] = Column::Alias;
                }
            }
            _ => {}
        }
    }
    tables
}

/// The types of the first record of a leaf by its number. Temporary tables have the number 0, and tables without a row id no such leaf.
fn record(db: &[u8], root: usize) -> Option<Vec<u64>> {
    let limits = &Limits::of_the_rules();
    let before = root.checked_sub(1)?;
    let pages = pages(db, 0, 0, page_size(db));
    let leaf = pages.get(before).filter(|page| page.bytes[page.header] == limits.leaf)?;
    let kinds = cells(leaf).next().and_then(|cell| {
        let record = &leaf.bytes[cell.record..cell.end];
        let header = whole(limits, record, 0)?;
        Some(types(limits, record, header.width, header.value, usize::MAX).ok()?.kinds)
    });
    Some(kinds.unwrap_or_default())
}

fn unhex(text: &str) -> Vec<u8> {
    let pairs = text.as_bytes().chunks(2).map(|pair| str::from_utf8(pair).ok());
    pairs.filter_map(|pair| u8::from_str_radix(pair?, 16).ok()).collect()
}

impl Table {
    /// Whether the record has a NULL in the alias's place and nowhere else, and nothing of what is not stored.
    pub fn is_at_one(&self) -> bool {
        let stored = self.columns.iter().filter(|column| **column != Column::Virtual);
        let null: Vec<bool> = stored.map(|column| *column == Column::Alias).collect();
        self.record.as_ref().is_none_or(|kinds| kinds.iter().map(|&kind| kind == 0).eq(null))
    }

    pub fn aliases(&self) -> usize {
        self.columns.iter().filter(|column| **column == Column::Alias).count()
    }
}

#[cfg(test)]
mod tests {
    use super::*;

    #[test]
    fn columns_are_as_they_are_printed() {
        let printed = "table|t0|0|6128\ntable|t1|0|61\ncolumn|t0|0\ncolumn|t0|2\ncolumn|t0|3\ncolumn|t0|0\ncolumn|t1|0\n\
            read|t0|0\n0|Init|0|7|0||0|\n3|Column|0|1|1||0|\nread|t0|3\n3|Rowid|0|1|0||0|\nread|t1|0\n3|Column|0|1|1||0|\n";
        let tables = listed(printed, &[]);
        assert_eq!(tables["t0"].columns, [Column::Plain, Column::Virtual, Column::Stored, Column::Alias]);
        assert_eq!(tables["t1"].columns, [Column::Plain]);
        assert_eq!((&tables["t0"].kept[..], &tables["t0"].record), (&b"a("[..], &None));
    }
}
