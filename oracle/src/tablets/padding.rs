//! No row that sqlite3 wrote has a padded number; and a padded number that is put into a page of it marks its row.

use super::carvers::File;
use super::rows::Lent;
use super::{hints_of, page_size, pages, Leaf};
use crate::calls::{self, ATTEMPT, BLOCK, MODES, RECOVER_SLICE, SCAN, UNALLOC};
use crate::case::Case;
use crate::cases::bytes::{varint, width};
use crate::cases::gaps::WAYS;
use crate::cases::regions::lists;
use crate::rules::attempt::{attempt, types};
use crate::rules::freeblock;
use crate::rules::limits::{Limits, WORDS_PER_ROW};
use crate::rules::page::number;
use crate::rules::varint::whole;
use crate::runner::{Runner, Sink};
use std::path::Path;
use std::{fs, io};

/// A cell of a leaf: where it and its record start, and where both end.
pub struct Cell {
    start: usize,
    pub record: usize,
    pub end: usize,
}

/// The cells that a leaf points at, as far as they lie in it.
pub fn cells<'a>(page: &'a Leaf) -> impl Iterator<Item = Cell> + 'a {
    let limits = Limits::of_the_rules();
    let count = number(page.bytes, page.header + 3, 2).unwrap_or(0);
    (0..count).filter_map(move |i| {
        let start = number(page.bytes, page.header + limits.leaf_header + 2 * i, 2)?;
        let length = whole(&limits, page.bytes, start)?;
        let id = whole(&limits, page.bytes, start + length.width)?;
        let record = start + length.width + id.width;
        let end = record + length.value as usize;
        (end <= page.bytes.len()).then_some(Cell { start, record, end })
    })
}

/// Every record of the large databases, at its cell. Each must be a row, and none marked; says how many there are.
pub fn as_written(runner: &mut Runner, folder: &Path) -> io::Result<Option<u64>> {
    runner.finish();
    let (mut expected, before) = (0, runner.tally.rows(ATTEMPT));
    for entry in fs::read_dir(folder)? {
        let path = entry?.path();
        if path.extension().is_some_and(|end| end == "db") {
            let db = fs::read(&path)?;
            let hints = hints_of(runner, &fs::read(path.with_extension("sql"))?);
            let count = fs::read_to_string(path.with_extension("count"))?;
            expected += count.trim().parse::<u64>().map_err(io::Error::other)?;
            // Page 1 has the schema alone.
            for page in pages(&db, 0, 0, page_size(&db)).iter().skip(1) {
                put_records(runner, page, &hints);
            }
        }
    }
    runner.finish();
    let after = runner.tally.rows(ATTEMPT);
    let (rows, padded) = (after.0 - before.0, after.1 - before.1);
    let good = rows == expected && padded == 0;
    if !good {
        println!("NOT AS WRITTEN: {rows} rows of {expected}, {padded} of them marked as padded");
    }
    Ok(good.then_some(rows))
}

fn put_records(runner: &mut Runner, page: &Leaf, hints: &[u8]) {
    if page.bytes[page.header] != runner.limits.leaf {
        return;
    }
    for cell in cells(page) {
        let place = (page.at + cell.record) as u64;
        let record = &page.bytes[cell.record..cell.end];
        runner.put(Case::new(ATTEMPT, &[place, 0], &[record, hints], &lists(1, hints.len())));
    }
}

/// A record with one of its numbers in a byte more, in as many bytes as before: its last body, a text or a blob, has one less. Number
/// 0 is its header's length.
fn padded(record: &[u8], which: usize) -> Option<Vec<u8>> {
    let limits = &Limits::of_the_rules();
    let own = whole(limits, record, 0)?;
    let mut numbers = vec![own.value + 1];
    numbers.extend(types(limits, record, own.width, own.value, usize::MAX).ok()?.kinds);
    let last = numbers.last_mut().filter(|kind| **kind >= 14)?;
    *last -= 2;
    let wide = |(i, &n): (usize, &u64)| varint(n, width(n) + usize::from(i == which));
    let header: Vec<u8> = numbers.iter().enumerate().flat_map(wide).collect();
    let bodies = &record[own.value as usize..record.len() - 1];
    (header.len() as u64 == own.value + 1).then(|| [&header[..], bodies].concat())
}

/// How many calls had a padded number put in, and on which cases a row is not marked as it should be.
#[derive(Default)]
pub struct PutIn {
    pub calls: usize,
    pub wrong: Vec<String>,
}

impl PutIn {
    /// Holds all sides against each other on a case, in which a row starts at that offset, marked or not.
    fn put(&mut self, runner: &mut Runner, case: Case, offset: usize, marked: bool) {
        let answer = (calls::of(&case).answer)(&runner.limits, &case);
        let rows = &answer.lists[answer.lists.len() - 2];
        let row = rows.chunks(WORDS_PER_ROW).find(|row| row[0] == offset as u64);
        self.calls += usize::from(marked);
        if row.and_then(|row| row.last()) != Some(&u64::from(marked)) {
            self.wrong.push(crate::text::line(&case));
        }
        runner.put(case);
    }

    /// Each number of the first live record of a file and of its first one in a freed block, as it is and padded.
    pub fn of_file(&mut self, runner: &mut Runner, lent: &Lent, file: &File) {
        let limits = Limits::of_the_rules();
        let live = file.leaves().find_map(|page| {
            let suits =
                |cell: &Cell| attempt(&limits, &page.bytes[cell.record..cell.end], &lent.hints, 0).found.is_some();
            Some((page, cells(page).filter(|_| page.at > 0).find(suits)?))
        });
        let freed = file.leaves().find_map(|page| {
            let (at, found) = freeblock::rows(&limits, page.bytes, page.header, &lent.hints).into_iter().next()?;
            Some((page, at, at + found.consumed as usize))
        });
        for which in 0..=lent.hints.len() {
            if let Some((page, cell)) = &live {
                self.of_record(page, cell.record..cell.end, which, |put_in, bytes, marked| {
                    put_in.live(runner, lent, &Leaf { bytes, ..**page }, cell, marked);
                });
            }
            if let Some((page, at, end)) = freed {
                self.of_record(page, at..end, which, |put_in, bytes, marked| {
                    let numbers = [page.header as u64, page.at as u64];
                    let case = Case::new(RECOVER_SLICE, &numbers, &[bytes, &lent.hints], &lists(20, lent.hints.len()));
                    put_in.put(runner, case, page.at + at, marked);
                });
            }
        }
    }

    /// The page as it is, and with a number of that record padded.
    fn of_record(
        &mut self,
        page: &Leaf,
        place: std::ops::Range<usize>,
        which: usize,
        mut with: impl FnMut(&mut PutIn, &[u8], bool),
    ) {
        if let Some(record) = padded(&page.bytes[place.clone()], which) {
            with(self, page.bytes, false);
            let mut bytes = page.bytes.to_vec();
            bytes[place].copy_from_slice(&record);
            with(self, &bytes, true);
        }
    }

    /// The calls that read a record from its header's length on, and its cell as if it were in a freed block.
    fn live(&mut self, runner: &mut Runner, lent: &Lent, page: &Leaf, cell: &Cell, marked: bool) {
        let (hints, width) = (&lent.hints[..], lent.hints.len());
        let (base, at, place) = (page.at as u64, cell.record as u64, page.at + cell.record);
        for call in [SCAN, ATTEMPT] {
            self.put(runner, Case::new(call, &[base, at], &[page.bytes, hints], &lists(1, width)), place, marked);
        }
        let own = &page.bytes[cell.start..cell.end];
        for way in WAYS {
            let case = Case::new(BLOCK, &[way, (page.at + cell.start) as u64], &[own, hints], &lists(1, width));
            self.put(runner, case, place, marked);
        }
        let record = &page.bytes[cell.record..cell.end];
        self.put(runner, Case::new(MODES, &[place as u64, width as u64], &[record], &lists(1, width)), place, marked);
        let case = Case::new(UNALLOC, &[place as u64], &[record], &lists(1, width));
        self.put(runner, case.with_words(&[&vec![13; width]]), place, marked);
    }
}
