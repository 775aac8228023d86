//! Rows in the freed blocks of pages.

use crate::door;
use crate::free_space::{FreeSpace, Way};
use crate::rows::codes;
use crate::{Hint, Records, Refusal, Table};

/// The rows in the freed blocks of the tables' leaves, in the order of the tables and of each one's walk
/// ([`leaf_pages`](crate::leaf_pages)), one page after the other: see [`FreeSpace`]. A row's offset is the place in the database.
///
/// # Errors
///
/// [`Refusal::ColumnCount`] for the number of a table's hints, [`Refusal::TooLarge`] for a database of more than
/// [`LARGEST_REGION`](crate::LARGEST_REGION) bytes, whose tables no call walks ([`recover_every_page_freeblocks`] takes it), and
/// [`Refusal::PageSize`].
pub fn recover_freeblocks<'a>(
    db: &'a [u8],
    page_size: usize,
    tables: &'a [Table],
) -> Result<FreeSpace<'a>, Refusal> {
    FreeSpace::of_tables(Way::Freeblocks, db, page_size, tables)
}

/// The rows in the freed blocks of every whole page of a database of any size, for one table's hints, one page after the other:
/// see [`FreeSpace`]. The types of pages are not looked at.
///
/// # Errors
///
/// [`Refusal::ColumnCount`] for the number of hints, and [`Refusal::PageSize`].
pub fn recover_every_page_freeblocks<'a>(
    db: &'a [u8],
    page_size: usize,
    hints: &[Hint],
) -> Result<FreeSpace<'a>, Refusal> {
    FreeSpace::of_every_page(Way::Freeblocks, db, page_size, codes(hints))
}

/// The rows in the freed blocks of the page `number` of a database; its type is not looked at. Their lists take no more than
/// `memory` bytes ([`DEFAULT_MEMORY`](crate::DEFAULT_MEMORY) will do as a rule).
///
/// # Errors
///
/// [`Refusal::ColumnCount`] for the number of hints, [`Refusal::TooLarge`], [`Refusal::PageSize`], [`Refusal::NoSuchPage`], and
/// [`Refusal::NoRoom`] where the rows take more memory.
pub fn recover_page_freeblocks<'a>(
    db: &'a [u8],
    page_size: usize,
    number: u64,
    hints: &[Hint],
    memory: usize,
) -> Result<Records<'a>, Refusal> {
    let codes = codes(hints);
    Records::of(codes.len(), memory, db, |rows, cols| {
        door::recover_page_freeblocks(db, page_size as u64, number, &codes, rows, cols)
    })
}

/// The rows in the freed blocks of a page that is lent by itself, with its b-tree header at `header` (100 on page 1, else 0) and
/// its first byte at the offset `base` of its file. Their lists take no more than `memory` bytes.
///
/// # Errors
///
/// [`Refusal::ColumnCount`] for the number of hints, [`Refusal::TooLarge`], [`Refusal::BaseTooFar`], and [`Refusal::NoRoom`] where
/// the rows take more memory.
pub fn recover_slice_freeblocks<'a>(
    page: &'a [u8],
    header: usize,
    base: u64,
    hints: &[Hint],
    memory: usize,
) -> Result<Records<'a>, Refusal> {
    let codes = codes(hints);
    Records::of(codes.len(), memory, page, |rows, cols| {
        Way::Freeblocks.call(page, header, base, &codes, [rows, cols])
    })
}

#[cfg(test)]
mod tests {
    use super::*;
    use crate::{Found, Source, Value, DEFAULT_MEMORY};

    const HINTS: [Hint; 2] = [Hint::Integer, Hint::Text];

    /// A leaf at page 2 with one freed block at 300, whose row starts behind one byte of rest.
    fn database() -> Vec<u8> {
        let mut db = vec![0; 2 * 512];
        let leaf = &mut db[512..];
        leaf[0] = 13;
        leaf[1..3].copy_from_slice(&300u16.to_be_bytes());
        leaf[300..314].copy_from_slice(&[
            0, 0, 0, 14, 0, 3, 1, 0x17, 0x2a, 0x68, 0x69, 0x70, 0x69, 0x6b,
        ]);
        db
    }

    fn all(found: FreeSpace) -> Vec<Found> {
        found.collect::<Result<_, _>>().unwrap()
    }

    fn starts(records: Records) -> Vec<u64> {
        records.map(|record| record.row.offset).collect()
    }

    #[test]
    fn a_freed_row_is_found_by_each_call() {
        let db = database();
        let tables = [
            Table::new("other", 7, vec![Hint::Any; 5]),
            Table::new("readings", 2, HINTS.to_vec()),
        ];
        let by_table = all(recover_freeblocks(&db, 512, &tables).unwrap());
        let [Found { page: 2, record }] = &by_table[..] else {
            panic!("{by_table:?}")
        };
        assert_eq!((record.row.offset, record.row.table), (512 + 305, 1));
        assert_eq!(record.table(), Some(&tables[1]));
        assert_eq!(record.row.source, Source::Freelist);
        assert_eq!(record.row.confidence, 0.6);
        let values = [Value::Integer(42), Value::Text("hipik")];
        assert_eq!(record.values().unwrap(), values);
        assert_eq!(record.entries[1].read(&db), Ok(values[1]));

        let every = all(recover_every_page_freeblocks(&db, 512, &HINTS).unwrap());
        assert_eq!((every.len(), every[0].page), (1, 2));
        assert_eq!(every[0].record.entries, record.entries);
        assert_eq!(every[0].record.table(), None);
        let number = recover_page_freeblocks(&db, 512, 2, &HINTS, DEFAULT_MEMORY).unwrap();
        assert_eq!(starts(number), [512 + 305]);
        let slice = recover_slice_freeblocks(&db[512..], 0, 10_000, &HINTS, DEFAULT_MEMORY);
        let slice: Vec<_> = slice.unwrap().collect();
        assert_eq!((slice.len(), slice[0].row.offset), (1, 10_305));
        assert_eq!(slice[0].values().unwrap(), values);
    }

    #[test]
    fn a_padded_header_is_marked() {
        let mut db = database();
        let marks = |db: &[u8]| -> Vec<bool> {
            let found = all(recover_every_page_freeblocks(db, 512, &HINTS).unwrap());
            found.iter().map(|found| found.record.row.padded).collect()
        };
        assert_eq!(marks(&db), [false]);
        // The byte of rest becomes a part of the header's length.
        db[512 + 304..][..2].copy_from_slice(&[0x80, 4]);
        assert_eq!(marks(&db), [true]);
    }

    #[test]
    fn what_is_not_there_is_refused_or_has_no_rows() {
        let db = database();
        assert!(recover_freeblocks(&db, 512, &[]).unwrap().next().is_none());
        let refused = |tables: &[Table], size| recover_freeblocks(&db, size, tables).unwrap_err();
        assert_eq!(refused(&[], 511), Refusal::PageSize);
        assert_eq!(refused(&[], 0), Refusal::PageSize);
        assert_eq!(
            refused(&[Table::new("none", 2, vec![])], 511),
            Refusal::ColumnCount
        );
        let every = |hints, size| recover_every_page_freeblocks(&db, size, hints).unwrap_err();
        assert_eq!(every(&HINTS, 0), Refusal::PageSize);
        assert_eq!(every(&[], 512), Refusal::ColumnCount);
        let page = |number| recover_page_freeblocks(&db, 512, number, &HINTS, DEFAULT_MEMORY);
        assert_eq!(page(3).unwrap_err(), Refusal::NoSuchPage);
        assert_eq!(page(1).unwrap().len(), 0);
        let slice = |hints| recover_slice_freeblocks(&[], 0, 0, hints, DEFAULT_MEMORY);
        assert_eq!(slice(&HINTS).unwrap().len(), 0);
        assert_eq!(slice(&[]).unwrap_err(), Refusal::ColumnCount);
    }
}
