//! Made-up CREATE TABLE statements, through sqlite3 and through our side: the hints by the format are as many as the columns that sqlite3
//! reports, and Null exactly where a column is the row id's alias. Where the rule's own words part from that, what each side says.

mod classes;
mod making;
mod sqlite;

use self::classes::{Class, CLASSES};
use self::sqlite::{Column, Table};
use crate::calls::COLUMN_HINTS;
use crate::case::Case;
use crate::random::Random;
use crate::runner::{Runner, Sink};
use std::path::Path;
use std::{io, slice};

const NULL: u64 = 4;

/// So many statements share a database.
const BATCH: usize = 200;
/// For so many statements there is one of each class.
const FOR_EACH_CLASS: usize = 50;

/// A longer text is not shown whole, and so many columns are not shown one by one.
const LONGEST: usize = 80;
const FEW: usize = 40;

/// The hints of a statement, or its refusal.
type Hints = Result<Vec<u64>, u64>;

/// Whether hints and table are as they must be. The hints are those of the statement as it was made, and as sqlite3 keeps it.
type Holds<'a> = &'a dyn Fn(&Hints, &Hints, &Table) -> bool;

/// What was held, in numbers.
#[derive(Default)]
struct Held {
    taken: usize,
    not_taken: usize,
    columns: usize,
    aliases: usize,
    records: usize,
    wrong: usize,
    /// The hints and the columns of the last.
    last: String,
}

pub fn run(runner: &mut Runner, folder: &str, seed: u64, count: usize) -> io::Result<bool> {
    let missing = runner.missing();
    if !missing.is_empty() {
        println!("NOT HELD, since the archive does not have it: {}", missing.join(", "));
        return Ok(false);
    }
    let (folder, mut random) = (Path::new(folder), Random::new(seed));
    let mut good = plain(runner, folder, &mut random, count)?;
    println!("\nClasses in which the rule's own words part from sqlite3: how many statements, and the smallest with its hints. Of its");
    println!("columns K is the row id's alias, V generated, S generated and stored, C any other.\n");
    for class in CLASSES {
        good &= of_class(runner, folder, class, &mut random, count / FOR_EACH_CLASS)?;
    }
    runner.finish();
    if let Some(difference) = &runner.difference {
        difference.print();
        return Ok(false);
    }
    println!("\nThe rules and our side agree on all {} cases, seed {seed}.", runner.tally.total());
    Ok(good)
}

fn plain(runner: &mut Runner, folder: &Path, random: &mut Random, count: usize) -> io::Result<bool> {
    let statements: Vec<String> = (0..count).map(|_| making::plain(random)).collect();
    let held = Held::of(runner, folder, &statements, &|made, kept, table| {
        made == kept && made.as_ref().is_ok_and(|hints| null_at_aliases(hints, table))
    })?;
    let Held { taken, not_taken, columns, aliases, records, wrong, .. } = held;
    println!("Of {count} made-up statements sqlite3 takes {taken} and does not take {not_taken}. Those that it takes have {columns} columns,");
    println!("{aliases} of them the row id's alias. {} have as many hints as columns, with Null at the alias alone, also as sqlite3", taken - wrong);
    println!("keeps them, and a NULL there alone in the record, where that stands in the file, as {records} do.");
    Ok(wrong == 0 && aliases > 0 && records > 0)
}

/// The smallest statement of a class, and others.
fn of_class(runner: &mut Runner, folder: &Path, class: &Class, random: &mut Random, count: usize) -> io::Result<bool> {
    let smallest = (class.smallest)();
    let others: Vec<String> = class.another.map_or(Vec::new(), |another| (0..count).map(|_| another(random)).collect());
    let holds: Holds = &|made, kept, table| class.parts.hold(made, kept, table);
    let others = Held::of(runner, folder, &others, holds)?;
    let held = Held::of(runner, folder, slice::from_ref(&smallest), holds)?;
    let not_taken = if others.not_taken > 0 { format!("; {} not taken", others.not_taken) } else { String::new() };
    println!("{:>4} {}{not_taken}", held.taken + others.taken, class.what);
    println!("     {}: {}", shortened(&smallest.replace(sqlite::NAME, "t")), held.last);
    Ok(held.taken == 1 && held.wrong + others.wrong == 0 && (others.taken > 0 || class.another.is_none()))
}

impl Held {
    fn of(runner: &mut Runner, folder: &Path, statements: &[String], holds: Holds) -> io::Result<Held> {
        let mut held = Held::default();
        for batch in statements.chunks(BATCH) {
            let tables = sqlite::tables(folder, batch)?;
            for (i, (statement, table)) in batch.iter().zip(tables).enumerate() {
                match table {
                    Some(table) => held.put(runner, &sqlite::named(statement, i), &table, holds)?,
                    None => held.not_taken += 1,
                }
            }
        }
        Ok(held)
    }

    fn put(&mut self, runner: &mut Runner, statement: &str, table: &Table, holds: Holds) -> io::Result<()> {
        let made = hints_of(runner, statement.as_bytes())?;
        let kept = hints_of(runner, &table.kept)?;
        self.taken += 1;
        self.columns += table.columns.len();
        self.aliases += table.aliases();
        self.records += usize::from(table.record.is_some());
        self.last = format!("{}, {}", shown(&made), columns_shown(table));
        if !(table.is_at_one() && holds(&made, &kept, table)) {
            self.wrong += 1;
            println!(
                "NOT AS IT SHOULD BE: {statement:?}: {}, as it is kept {}, types {:?}",
                self.last,
                shown(&kept),
                table.record
            );
        }
        Ok(())
    }
}

/// What our side has of a statement; the rules are held to it as in any case.
fn hints_of(runner: &mut Runner, statement: &[u8]) -> io::Result<Hints> {
    let case = Case::new(COLUMN_HINTS, &[], &[statement], &[runner.limits.columns]);
    let mut left = runner.ask(&case)?;
    runner.put(case);
    left.lists[0].truncate(left.out[0] as usize);
    Ok(if left.number == 0 { Ok(left.lists.remove(0)) } else { Err(left.number) })
}

/// Whether there is a hint for each column, and Null where the alias stands alone.
fn null_at_aliases(hints: &[u64], table: &Table) -> bool {
    hints.iter().map(|&hint| hint == NULL).eq(table.columns.iter().map(|&column| column == Column::Alias))
}

fn shown(hints: &Hints) -> String {
    match hints {
        Ok(hints) => {
            format!("hints {}", hints.iter().map(|&hint| char::from(b"IRTBNA"[hint as usize])).collect::<String>())
        }
        Err(number) => format!("refused {number}"),
    }
}

fn columns_shown(table: &Table) -> String {
    let letter = |column: &Column| match column {
        Column::Plain => 'C',
        Column::Alias => 'K',
        Column::Virtual => 'V',
        Column::Stored => 'S',
    };
    match table.columns.len() {
        count @ FEW.. => format!("{count} columns"),
        _ => format!("columns {}", table.columns.iter().map(letter).collect::<String>()),
    }
}

fn shortened(text: &str) -> String {
    let shown: String = text.chars().take(LONGEST).collect();
    let shown = shown.replace('\u{feff}', "\\u{feff}");
    if text.chars().count() > LONGEST {
        format!("{}.. ({} characters)", shown.trim_end(), text.chars().count())
    } else {
        shown
    }
}

#[cfg(test)]
mod tests {
    use super::classes::Parts;
    use super::*;

    fn table(columns: &[Column], record: &[u64]) -> Table {
        Table { kept: Vec::new(), columns: columns.to_vec(), record: Some(record.to_vec()) }
    }

    #[test]
    fn null_must_stand_at_the_alias_alone() {
        let keyed = table(&[Column::Plain, Column::Alias], &[9, 0]);
        assert!(null_at_aliases(&[0, NULL], &keyed) && keyed.is_at_one());
        for wrong in [&[0, 0][..], &[NULL, 0], &[NULL, NULL], &[0], &[0, NULL, 0], &[]] {
            assert!(!null_at_aliases(wrong, &keyed), "{wrong:?}");
        }
        for record in [&[9, 9][..], &[0, 9], &[0, 0], &[9], &[9, 0, 9], &[]] {
            assert!(!table(&keyed.columns, record).is_at_one(), "{record:?}");
        }
        assert!(table(&[Column::Plain, Column::Virtual, Column::Stored], &[9, 9]).is_at_one());
    }

    #[test]
    fn a_class_is_what_both_sides_say() {
        let (keyed, plain) = (table(&[Column::Alias], &[0]), table(&[Column::Plain], &[9]));
        let hold = |parts: Parts, hints: &[u64], table: &Table| {
            let hints = Ok(hints.to_vec());
            parts.hold(&hints, &hints, table)
        };
        assert!(hold(Parts::AliasAs(0), &[0], &keyed) && !hold(Parts::AliasAs(0), &[0], &plain));
        assert!(!hold(Parts::AliasAs(0), &[NULL], &keyed) && !hold(Parts::AliasAs(0), &[5], &keyed));
        assert!(hold(Parts::NullAlone, &[NULL], &plain) && !hold(Parts::NullAlone, &[NULL], &keyed));
        assert!(!hold(Parts::NullAlone, &[0], &plain));
        assert!(hold(Parts::OneMore, &[0, 5], &plain) && !hold(Parts::OneMore, &[0], &plain));
        assert!(!hold(Parts::Generated, &[0], &plain) && !hold(Parts::Refused(7), &[0], &plain));
        assert!(
            Parts::Refused(7).hold(&Err(7), &Ok(vec![5]), &plain) && !Parts::Refused(7).hold(&Err(7), &Err(7), &plain)
        );
        assert!(
            Parts::RefusedAsKept(1).hold(&Err(1), &Err(1), &plain)
                && !Parts::RefusedAsKept(1).hold(&Err(3), &Err(3), &plain)
        );
    }
}
