//! Rows in the free space of many pages, one page after the other.

use crate::door;
use crate::lists::Lists;
use crate::pages::leaf_pages;
use crate::rows::codes;
use crate::{Rebuilding, Record, Refusal, Table, DEFAULT_MEMORY};
use std::error::Error;
use std::fmt;
use std::ops::RangeInclusive;
use std::vec;

/// What is looked at on a page.
#[derive(Clone, Copy, Debug)]
pub(crate) enum Way {
    /// Its gap and its freed blocks.
    Gaps(Rebuilding),
    /// The first row in each freed block.
    Freeblocks,
}

impl Way {
    /// The call on a page that is lent by itself.
    pub(crate) fn call(
        self,
        page: &[u8],
        header: usize,
        base: u64,
        codes: &[u8],
        [rows, cols]: [&mut [u64]; 2],
    ) -> door::Answer<1> {
        match self {
            Way::Gaps(rebuilding) => {
                door::scan_single_page_gap(rebuilding as u64, page, header, base, codes, rows, cols)
            }
            Way::Freeblocks => {
                door::recover_slice_freeblocks(page, header, base, codes, rows, cols)
            }
        }
    }

    /// Whether hints are refused: a page without bytes has no rows, and its call no other checks.
    fn check(self, codes: &[u8]) -> Result<(), Refusal> {
        let (number, _) = self.call(&[], 0, 0, codes, [&mut [], &mut []]);
        Refusal::check(number)
    }
}

/// A row in the free space of a page, with the number of the page.
#[derive(Clone, Debug, PartialEq)]
#[non_exhaustive]
pub struct Found<'a> {
    /// The page's number; pages count from 1.
    pub page: u64,
    /// The row. Its offset and its entries are places in the database.
    pub record: Record<'a>,
}

/// A page whose rows were not given, and why.
#[derive(Clone, Copy, Debug, PartialEq, Eq, Hash)]
#[non_exhaustive]
pub struct PageError {
    /// The page's number; pages count from 1.
    pub page: u64,
    /// [`Refusal::NoRoom`]: its rows would take more memory than the iterator's limit or than the machine has, or it is a table's
    /// root and the machine has none for the walk.
    pub refusal: Refusal,
}

impl fmt::Display for PageError {
    fn fmt(&self, f: &mut fmt::Formatter<'_>) -> fmt::Result {
        write!(f, "page {}: {}", self.page, self.refusal)
    }
}

impl Error for PageError {
    fn source(&self) -> Option<&(dyn Error + 'static)> {
        Some(&self.refusal)
    }
}

/// Numbers of pages.
#[derive(Debug)]
enum Numbers {
    Leaves(vec::IntoIter<u64>),
    Every(RangeInclusive<u64>),
}

impl Iterator for Numbers {
    type Item = u64;

    fn next(&mut self) -> Option<u64> {
        match self {
            Numbers::Leaves(leaves) => leaves.next(),
            Numbers::Every(pages) => pages.next(),
        }
    }
}

/// A table by its index, with the codes of its hints.
type Lent<'a> = (usize, &'a Table, Vec<u8>);

/// The rows in the free space of pages, one page after the other; made by [`GapWalk::rows`](crate::GapWalk::rows),
/// [`recover_freeblocks`](crate::recover_freeblocks) and [`recover_every_page_freeblocks`](crate::recover_every_page_freeblocks).
///
/// It holds the rows of one page at a time, in no more than [`DEFAULT_MEMORY`] bytes, or as [`FreeSpace::memory`] says. A page
/// whose rows take more is an error that names it, and the pages behind it follow.
///
/// ```
/// # use phsarodil::{scan_every_page_gap, Hint};
/// # let db = vec![0; 4096];
/// for found in scan_every_page_gap(&db, 1024, &[Hint::Text, Hint::Integer]).rows()?.memory(1 << 20) {
///     match found {
///         Ok(found) if found.record.row.confidence >= 0.85 => println!("page {}: {:?}", found.page, found.record.values()?),
///         Ok(_) => (),
///         Err(error) => eprintln!("{error}"),
///     }
/// }
/// # Ok::<(), phsarodil::Refusal>(())
/// ```
#[derive(Debug)]
#[must_use = "pages are read as rows are taken"]
pub struct FreeSpace<'a> {
    way: Way,
    db: &'a [u8],
    page_size: usize,
    memory: usize,
    /// Tables whose leaves are still to come.
    tables: vec::IntoIter<Lent<'a>>,
    /// The table whose leaves `numbers` are, if tables are lent.
    table: Option<(usize, &'a Table)>,
    codes: Vec<u8>,
    numbers: Numbers,
    /// The lists hold the `filled` rows of `page`, of which `given` were handed out.
    lists: Option<Lists>,
    page: u64,
    filled: usize,
    given: usize,
}

impl<'a> FreeSpace<'a> {
    /// Of the leaves of tables.
    pub(crate) fn of_tables(
        way: Way,
        db: &'a [u8],
        page_size: usize,
        tables: &'a [Table],
    ) -> Result<FreeSpace<'a>, Refusal> {
        let lent: Vec<Lent> = tables
            .iter()
            .enumerate()
            .map(|(index, table)| (index, table, codes(&table.hints)))
            .collect();
        for (_, _, codes) in &lent {
            way.check(codes)?;
        }
        // The walk's own checks: no table is walked before its rows are asked for.
        leaf_pages(db, page_size, 0)?;
        let none = Numbers::Leaves(Vec::new().into_iter());
        Ok(FreeSpace {
            tables: lent.into_iter(),
            ..FreeSpace::new(way, db, page_size, Vec::new(), none)
        })
    }

    /// Of every page, for hints by their codes.
    pub(crate) fn of_every_page(
        way: Way,
        db: &'a [u8],
        page_size: usize,
        codes: Vec<u8>,
    ) -> Result<FreeSpace<'a>, Refusal> {
        way.check(&codes)?;
        // Of no pages, since a database of any size is taken.
        leaf_pages(&[], page_size, 0)?;
        let every = Numbers::Every(1..=(db.len() / page_size) as u64);
        Ok(FreeSpace::new(way, db, page_size, codes, every))
    }

    fn new(
        way: Way,
        db: &'a [u8],
        page_size: usize,
        codes: Vec<u8>,
        numbers: Numbers,
    ) -> FreeSpace<'a> {
        FreeSpace {
            way,
            db,
            page_size,
            memory: DEFAULT_MEMORY,
            tables: Vec::new().into_iter(),
            table: None,
            codes,
            numbers,
            lists: None,
            page: 0,
            filled: 0,
            given: 0,
        }
    }

    /// Sets how many bytes the lists of one page's rows may take, [`DEFAULT_MEMORY`] if it is not said. Call it before the first
    /// row is taken.
    pub fn memory(self, bytes: usize) -> FreeSpace<'a> {
        FreeSpace {
            memory: bytes,
            ..self
        }
    }

    /// The next page, walking to the leaves of the next table where one is through.
    fn next_page(&mut self) -> Option<Result<u64, PageError>> {
        loop {
            if let Some(number) = self.numbers.next() {
                return Some(Ok(number));
            }
            let (index, table, codes) = self.tables.next()?;
            let leaves = leaf_pages(self.db, self.page_size, table.root);
            (self.table, self.codes, self.lists) = (Some((index, table)), codes, None);
            match leaves {
                Ok(leaves) => self.numbers = Numbers::Leaves(leaves.into_iter()),
                Err(refusal) => {
                    let page = table.root;
                    return Some(Err(PageError { page, refusal }));
                }
            }
        }
    }

    fn start(&self) -> usize {
        (self.page as usize - 1) * self.page_size
    }

    /// Fills the lists with the rows of the page, and answers how many they are.
    fn carve(&mut self) -> Result<usize, Refusal> {
        let start = self.start();
        let page = &self.db[start..][..self.page_size];
        let header = if self.page == 1 { 100 } else { 0 };
        let mut lists = match self.lists.take() {
            Some(lists) => lists,
            None => Lists::first(self.codes.len(), self.memory)?,
        };
        let filled = lists.fill(self.memory, |rows, cols| {
            self.way
                .call(page, header, start as u64, &self.codes, [rows, cols])
        })?;
        self.lists = Some(lists);
        Ok(filled)
    }

    fn give(&mut self) -> Option<Found<'a>> {
        let lists = self.lists.as_ref().filter(|_| self.given < self.filled)?;
        let start = self.start();
        let record = lists
            .record(self.given, &self.db[start..])
            .in_whole(self.db, start);
        self.given += 1;
        let record = match self.table {
            Some((index, table)) => record.of_table(index, table),
            None => record,
        };
        let page = self.page;
        Some(Found { page, record })
    }
}

impl<'a> Iterator for FreeSpace<'a> {
    type Item = Result<Found<'a>, PageError>;

    fn next(&mut self) -> Option<Self::Item> {
        loop {
            if let Some(found) = self.give() {
                return Some(Ok(found));
            }
            (self.filled, self.given) = (0, 0);
            let carved = self.next_page()?.and_then(|page| {
                self.page = page;
                self.carve().map_err(|refusal| PageError { page, refusal })
            });
            match carved {
                Ok(filled) => self.filled = filled,
                Err(error) => return Some(Err(error)),
            }
        }
    }
}

#[cfg(test)]
mod tests {
    use super::*;
    use crate::{recover_freeblocks, scan_every_page_gap, scan_page_gaps, Hint, Row};

    const SIZE: usize = 512;

    /// A root with the leaves 2 and 3, and a table of its own on page 4. Each leaf has freed blocks with rows of two columns, one without
    /// all before its types and one in a whole cell.
    fn database() -> Vec<u8> {
        let mut db = vec![0; 4 * SIZE];
        db[100] = 5;
        db[104] = 1;
        db[108..114].copy_from_slice(&[0, 0, 0, 3, 1, 0]);
        db[256..260].copy_from_slice(&[0, 0, 0, 2]);
        for leaf in db[SIZE..].chunks_exact_mut(SIZE) {
            leaf[..9].copy_from_slice(&[13, 1, 44, 0, 0, 1, 44, 0, 0]);
            leaf[300..309].copy_from_slice(&[1, 64, 0, 9, 0x11, 1, b'P', b'1', 42]);
            leaf[320..332].copy_from_slice(&[0, 0, 0, 12, 6, 7, 3, 0x11, 1, b'P', b'2', 43]);
        }
        db
    }

    fn tables() -> [Table; 2] {
        [
            Table::new("readings", 1, vec![Hint::Text, Hint::Integer]),
            Table::new("plots", 4, vec![Hint::Any]),
        ]
    }

    /// The rows and values of the call over all tables at once.
    fn at_once(db: &[u8], tables: &[Table], way: Way) -> Vec<(Row, Vec<String>)> {
        let roots: Vec<u64> = tables.iter().map(|table| table.root).collect();
        let counts: Vec<u64> = tables
            .iter()
            .map(|table| table.hints.len() as u64)
            .collect();
        let hints: Vec<u8> = tables
            .iter()
            .flat_map(|table| codes(&table.hints))
            .collect();
        let mut lists = Lists::new(100, 2).unwrap();
        let Lists { rows, cols, .. } = &mut lists;
        let walk = (&mut [0; 4][..], &mut [0; 8][..]);
        let (lent, sheet) = ([&roots[..], &counts], [&mut rows[..], cols]);
        let size = SIZE as u64;
        let (number, [written]) = match way {
            Way::Gaps(mode) => {
                door::scan_page_gaps(mode as u64, db, size, lent, &hints, walk, sheet)
            }
            Way::Freeblocks => door::recover_freeblocks(db, size, lent, &hints, walk, sheet),
        };
        assert_eq!(number, 0);
        let records = (0..written as usize).map(|i| lists.record(i, db).used());
        records.map(|record| (record.row, shown(&record))).collect()
    }

    fn shown(record: &Record) -> Vec<String> {
        let values = record.values().unwrap();
        values.iter().map(ToString::to_string).collect()
    }

    #[test]
    fn page_by_page_is_all_tables_at_once() {
        let (db, tables) = (database(), tables());
        for way in [
            Way::Gaps(Rebuilding::NoGuesses),
            Way::Gaps(Rebuilding::OneByte),
            Way::Gaps(Rebuilding::Exact),
            Way::Freeblocks,
        ] {
            let found = match way {
                Way::Gaps(mode) => scan_page_gaps(&db, SIZE, &tables).rebuilding(mode).rows(),
                Way::Freeblocks => recover_freeblocks(&db, SIZE, &tables),
            };
            let found: Vec<Found> = found.unwrap().collect::<Result<_, _>>().unwrap();
            let rows: Vec<_> = found
                .iter()
                .map(|found| (found.record.row, shown(&found.record)))
                .collect();
            assert_eq!(rows, at_once(&db, &tables, way), "{way:?}");
            assert!(rows.len() >= 2);
            for Found { page, record } in &found {
                assert_eq!(*page, record.row.offset / SIZE as u64 + 1);
                assert_eq!(record.table(), Some(&tables[record.row.table]));
            }
        }
    }

    #[test]
    fn a_page_past_the_limit_is_named_and_hides_none() {
        let db = database();
        let hints = [Hint::Text, Hint::Integer];
        let pages = |memory| -> Vec<_> {
            let found = scan_every_page_gap(&db, SIZE, &hints).rows().unwrap();
            let pages = found
                .memory(memory)
                .map(|found| found.map(|found| found.page));
            pages.collect()
        };
        let all = pages(DEFAULT_MEMORY);
        assert!([2, 3, 4].iter().all(|page| all.contains(&Ok(*page))));
        let refusal = Refusal::NoRoom;
        let named = [2, 3, 4].map(|page| Err(PageError { page, refusal }));
        assert!(pages(0).ends_with(&named));
        let error = PageError { page: 2, refusal };
        assert_eq!(
            error.to_string(),
            "page 2: refused 9: the rows need more memory than they may take"
        );
    }
}
