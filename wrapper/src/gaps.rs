//! Rows in the free space of pages: the gap before their content, cells in freed blocks, and guesses.

use crate::door;
use crate::free_space::{FreeSpace, Way};
use crate::rows::codes;
use crate::{Hint, Records, Refusal, Table, DEFAULT_MEMORY};

/// Whether guesses are made, and how. A guess is a row whose header length is made up: at each byte of a freed block types are taken to
/// begin, and all before them to be lost.
///
/// A call on one page makes none unless it is told to ([`PageGap::rebuilding`]); a walk over many makes them as the Rust does that the
/// library is held against ([`GapWalk::rebuilding`]). For guesses lend [`Rebuilding::Exact`], unless they are to be those of the Rust.
/// Neither of the two finds all rows that the other does, and both find rows that are none. Less the guesses their lists are that of
/// [`Rebuilding::NoGuesses`], in the same order: it is proved (docs/RULES.md, 11.13).
///
/// SQLite overwrites the first four bytes of a freed cell. Where the record's length, the row id and the header's length take one
/// byte each (small tables, short rows), the fourth is the type of the first column. If that is an INTEGER PRIMARY KEY, which has
/// no body, the hints behind it bring the row back. Of any other first column the length of its body is lost with the type: then
/// hints from the second column on read every value from the wrong place.
#[derive(Clone, Copy, Debug, Default, PartialEq, Eq, Hash)]
#[non_exhaustive]
pub enum Rebuilding {
    /// None: the rows are those of the gap and of whole cells.
    #[default]
    NoGuesses = 0,
    /// The types take one byte each: no note may have more than 57 bytes, and no table more than
    /// [`MOST_ONE_BYTE_COLUMNS`](crate::MOST_ONE_BYTE_COLUMNS) columns.
    OneByte = 1,
    /// As many types as there are columns, whatever bytes they take, up to 510 in all; the bodies stand behind them.
    Exact = 2,
}

/// The rows in the free space of the tables' leaves, in the order of the tables and of each one's walk
/// ([`leaf_pages`](crate::leaf_pages)), one page after the other: see [`GapWalk`]. A row's offset is the place in the database.
/// Rows of whole cells have a row id.
///
/// A freed record with a note of 58 bytes; the four bytes of the block's link lie over its length, its row id and its header length.
///
/// ```
/// # use phsarodil::{scan_page_gaps, Hint, Rebuilding, Table, Value};
/// let note = "n".repeat(58);
/// let mut db = vec![0; 2 * 512];
/// db[512] = 13;
/// db[513..515].copy_from_slice(&[1, 44]);
/// db[512 + 300..][..8].copy_from_slice(&[0, 0, 0, 66, 1, 0x81, 0x01, 42]);
/// db[512 + 308..][..58].copy_from_slice(note.as_bytes());
/// let tables = [Table::new("readings", 2, vec![Hint::Integer, Hint::Text])];
/// let walk = scan_page_gaps(&db, 512, &tables);
/// let found = walk.clone().rebuilding(Rebuilding::Exact).rows()?.next().unwrap()?;
/// assert_eq!(found.page, 2);
/// assert_eq!(found.record.table().unwrap().name, "readings");
/// assert_eq!(found.record.values()?, [Value::Integer(42), Value::Text(&note)]);
/// // As the Rust does it: here the text begins with the integer.
/// let found = walk.rows()?.next().unwrap()?;
/// assert_eq!(found.record.values()?[0], Value::Integer(1));
/// # Ok::<(), Box<dyn std::error::Error>>(())
/// ```
pub fn scan_page_gaps<'a>(db: &'a [u8], page_size: usize, tables: &'a [Table]) -> GapWalk<'a> {
    GapWalk::new(db, page_size, Pages::Leaves(tables))
}

/// The rows in the free space of every whole page of a database of any size, for one table's hints, one page after the other: see
/// [`GapWalk`]. The types of pages are not looked at.
pub fn scan_every_page_gap<'a>(db: &'a [u8], page_size: usize, hints: &[Hint]) -> GapWalk<'a> {
    GapWalk::new(db, page_size, Pages::Every(codes(hints)))
}

/// A walk over the free space of many pages that is to be made; made by [`scan_page_gaps`] and [`scan_every_page_gap`].
#[derive(Clone, Debug)]
#[must_use = "`rows` begins the walk"]
pub struct GapWalk<'a> {
    db: &'a [u8],
    page_size: usize,
    pages: Pages<'a>,
    rebuilding: Rebuilding,
}

/// Where a walk goes.
#[derive(Clone, Debug)]
enum Pages<'a> {
    /// The leaves of tables.
    Leaves(&'a [Table]),
    /// Every page, for hints by their codes.
    Every(Vec<u8>),
}

impl<'a> GapWalk<'a> {
    fn new(db: &'a [u8], page_size: usize, pages: Pages<'a>) -> GapWalk<'a> {
        GapWalk {
            db,
            page_size,
            pages,
            // Not the default: who walks a whole database relies on the rows of the Rust.
            rebuilding: Rebuilding::OneByte,
        }
    }

    /// Which guesses are made, those of [`Rebuilding::OneByte`] if it is not said.
    pub fn rebuilding(self, rebuilding: Rebuilding) -> GapWalk<'a> {
        GapWalk { rebuilding, ..self }
    }

    /// The rows, one page after the other.
    ///
    /// # Errors
    ///
    /// [`Refusal::ColumnCount`] for the number of a table's hints, which with [`Rebuilding::OneByte`] is
    /// [`MOST_ONE_BYTE_COLUMNS`](crate::MOST_ONE_BYTE_COLUMNS) at the most; [`Refusal::TooLarge`] for the tables of a database of more
    /// than [`LARGEST_REGION`](crate::LARGEST_REGION) bytes, which no call walks ([`scan_every_page_gap`] takes it); and
    /// [`Refusal::PageSize`].
    pub fn rows(self) -> Result<FreeSpace<'a>, Refusal> {
        let way = Way::Gaps(self.rebuilding);
        match self.pages {
            Pages::Leaves(tables) => FreeSpace::of_tables(way, self.db, self.page_size, tables),
            Pages::Every(codes) => FreeSpace::of_every_page(way, self.db, self.page_size, codes),
        }
    }
}

/// The rows in the free space of the page `number` of a database: see [`PageGap`]. The page's type is not looked at.
pub fn scan_page_gap<'a>(
    db: &'a [u8],
    page_size: usize,
    number: u64,
    hints: &[Hint],
) -> PageGap<'a> {
    let space = Space::Numbered {
        db,
        page_size,
        number,
    };
    PageGap::new(space, hints)
}

/// The rows in the free space of a page that is lent by itself, with its b-tree header at `header` (100 on page 1, else 0) and its
/// first byte at the offset `base` of its file: see [`PageGap`].
pub fn scan_single_page_gap<'a>(
    page: &'a [u8],
    header: usize,
    base: u64,
    hints: &[Hint],
) -> PageGap<'a> {
    PageGap::new(Space::Slice { page, header, base }, hints)
}

/// The rows in what stands behind the first four bytes of one freed block, whole cells and then guesses: see [`PageGap`]. `base` is the
/// offset of its first byte.
pub fn parse_cells_from_freeblock<'a>(payload: &'a [u8], base: u64, hints: &[Hint]) -> PageGap<'a> {
    PageGap::new(Space::Payload { payload, base }, hints)
}

/// A call on the free space of one page or freed block that is to be made; made by [`scan_page_gap`], [`scan_single_page_gap`] and
/// [`parse_cells_from_freeblock`]. It brings no guesses, unless [`PageGap::rebuilding`] asks for them.
///
/// ```
/// use phsarodil::{parse_cells_from_freeblock, Hint, Rebuilding, Value};
///
/// // A cell with the row id 7, and what is left of one behind the link that overwrote its first bytes.
/// let payload = b"\x09\x07\x03\x01\x17*hipik\0\0\0\x0c\x01\x17+hopok";
/// let block = parse_cells_from_freeblock(payload, 0, &[Hint::Integer, Hint::Text]);
/// let ids: Vec<_> = block.clone().rows()?.map(|record| record.row.id).collect();
/// assert_eq!(ids, [Some(7)]);
/// let guess = block.rebuilding(Rebuilding::Exact).rows()?.last().unwrap();
/// assert_eq!(guess.row.id, None);
/// assert_eq!(guess.values()?, [Value::Integer(43), Value::Text("hopok")]);
/// # Ok::<(), phsarodil::Refusal>(())
/// ```
#[derive(Clone, Debug)]
#[must_use = "`rows` makes the call"]
pub struct PageGap<'a> {
    space: Space<'a>,
    codes: Vec<u8>,
    rebuilding: Rebuilding,
    memory: usize,
}

impl<'a> PageGap<'a> {
    fn new(space: Space<'a>, hints: &[Hint]) -> PageGap<'a> {
        PageGap {
            space,
            codes: codes(hints),
            rebuilding: Rebuilding::default(),
            memory: DEFAULT_MEMORY,
        }
    }

    /// Which guesses are made, none if it is not said.
    pub fn rebuilding(self, rebuilding: Rebuilding) -> PageGap<'a> {
        PageGap { rebuilding, ..self }
    }

    /// How many bytes the lists of the rows may take, [`DEFAULT_MEMORY`] if it is not said.
    pub fn memory(self, bytes: usize) -> PageGap<'a> {
        PageGap {
            memory: bytes,
            ..self
        }
    }

    /// The rows.
    ///
    /// # Errors
    ///
    /// [`Refusal::ColumnCount`] for the number of hints and [`Refusal::TooLarge`]; for a page by its number [`Refusal::PageSize`] and
    /// [`Refusal::NoSuchPage`], for what is lent by itself [`Refusal::BaseTooFar`]; and [`Refusal::NoRoom`] where the rows take more
    /// memory.
    pub fn rows(self) -> Result<Records<'a>, Refusal> {
        let region = self.space.region();
        Records::of(self.codes.len(), self.memory, region, |rows, cols| {
            self.space.call(self.rebuilding, &self.codes, [rows, cols])
        })
    }
}

/// What is looked at.
#[derive(Clone, Copy, Debug)]
enum Space<'a> {
    /// A page by its number.
    Numbered {
        db: &'a [u8],
        page_size: usize,
        number: u64,
    },
    /// A page that is lent by itself.
    Slice {
        page: &'a [u8],
        header: usize,
        base: u64,
    },
    /// What stands behind the link of a freed block.
    Payload { payload: &'a [u8], base: u64 },
}

impl<'a> Space<'a> {
    /// The bytes that the rows' entries lie in.
    fn region(self) -> &'a [u8] {
        match self {
            Space::Numbered { db, .. } => db,
            Space::Slice { page, .. } => page,
            Space::Payload { payload, .. } => payload,
        }
    }

    fn call(
        self,
        rebuilding: Rebuilding,
        codes: &[u8],
        [rows, cols]: [&mut [u64]; 2],
    ) -> door::Answer<1> {
        let code = rebuilding as u64;
        match self {
            Space::Numbered {
                db,
                page_size,
                number,
            } => door::scan_page_gap(code, db, page_size as u64, number, codes, rows, cols),
            Space::Slice { page, header, base } => {
                Way::Gaps(rebuilding).call(page, header, base, codes, [rows, cols])
            }
            Space::Payload { payload, base } => {
                door::parse_cells_from_freeblock(code, payload, base, codes, rows, cols)
            }
        }
    }
}

#[cfg(test)]
mod tests {
    use super::*;
    use crate::lists::row_bytes;
    use crate::{Found, Record, Source, Value, MOST_COLUMNS, MOST_ONE_BYTE_COLUMNS};
    use Rebuilding::{Exact, NoGuesses, OneByte};

    const HINTS: [Hint; 2] = [Hint::Integer, Hint::Text];

    /// A cell: the record's length, the row id 7, and the record.
    const CELL: [u8; 11] = [9, 7, 3, 1, 0x17, 0x2a, 0x68, 0x69, 0x70, 0x69, 0x6b];

    fn cells<'a>(
        way: Rebuilding,
        payload: &'a [u8],
        base: u64,
        hints: &[Hint],
    ) -> Result<Vec<Record<'a>>, Refusal> {
        let block = parse_cells_from_freeblock(payload, base, hints).rebuilding(way);
        block.rows().map(Iterator::collect)
    }

    /// Page 2 has a row in its gap, and two freed blocks. In the first a cell stands before what is left of two others, of which the last
    /// has a type of two bytes; in the second one cell.
    fn database() -> Vec<u8> {
        let mut db = vec![0; 2 * 512];
        let mut put = |place: usize, bytes: &[u8]| {
            db[512 + place..][..bytes.len()].copy_from_slice(bytes);
        };
        put(0, &[13, 1, 44, 0, 0, 0, 200]);
        put(100, &CELL[2..]);
        put(300, &[1, 144, 0, 32]);
        put(304, &CELL);
        put(315, &CELL[3..]);
        put(323, &[1, 0x80]);
        put(325, &CELL[4..]);
        put(400, &[0, 0, 0, 15]);
        put(404, &CELL);
        db
    }

    /// On that page no other row without a row id is in a freed block.
    fn is_guess(record: &Record) -> bool {
        record.row.id.is_none() && record.row.offset >= 512 + 300
    }

    fn listed(call: PageGap) -> Vec<Record> {
        call.rows().unwrap().collect()
    }

    fn walked(walk: GapWalk) -> Vec<Found> {
        walk.rows().unwrap().collect::<Result<_, _>>().unwrap()
    }

    #[test]
    fn calls_on_one_page_guess_only_where_they_are_told_to() {
        let db = database();
        let (page, payload) = (&db[512..], &db[512 + 304..512 + 332]);
        let whole = [512 + 100, 512 + 306, 512 + 406];
        for (call, whole) in [
            (scan_page_gap(&db, 512, 2, &HINTS), &whole[..]),
            (scan_single_page_gap(page, 0, 512, &HINTS), &whole),
            (
                parse_cells_from_freeblock(payload, 512 + 304, &HINTS),
                &whole[1..2],
            ),
        ] {
            let plain = listed(call.clone());
            let starts: Vec<u64> = plain.iter().map(|record| record.row.offset).collect();
            assert_eq!(starts, whole);
            assert_eq!(listed(call.clone().rebuilding(NoGuesses)), plain);
            for way in [OneByte, Exact] {
                let all = listed(call.clone().rebuilding(way));
                let (guesses, rest): (Vec<_>, Vec<_>) = all.into_iter().partition(is_guess);
                assert_eq!(rest, plain);
                let lost = guesses.iter().find(|guess| guess.row.offset == 512 + 315);
                assert_eq!(
                    lost.unwrap().values().unwrap(),
                    [Value::Integer(42), Value::Text("hipik")]
                );
            }
        }
    }

    #[test]
    fn walks_guess_as_the_rust_does_unless_they_are_told_otherwise() {
        let (db, tables) = (database(), [Table::new("readings", 2, HINTS.to_vec())]);
        for walk in [
            scan_page_gaps(&db, 512, &tables),
            scan_every_page_gap(&db, 512, &HINTS),
        ] {
            let plain = walked(walk.clone());
            assert!(plain.iter().any(|found| is_guess(&found.record)));
            assert_eq!(walked(walk.clone().rebuilding(OneByte)), plain);
            assert_ne!(walked(walk.clone().rebuilding(Exact)), plain);
            let rest = plain.iter().filter(|found| !is_guess(&found.record));
            assert!(rest.eq(&walked(walk.rebuilding(NoGuesses))));
        }
    }

    #[test]
    fn a_wide_table_refuses_a_walk_in_one_byte_alone() {
        let wide = vec![Hint::Any; MOST_ONE_BYTE_COLUMNS + 1];
        let tables = [HINTS.to_vec(), wide.clone()].map(|hints| Table::new("", 2, hints));
        for walk in [
            scan_page_gaps(&[], 512, &tables),
            scan_every_page_gap(&[], 512, &wide),
        ] {
            let refusal = |way| walk.clone().rebuilding(way).rows().err();
            assert_eq!(walk.clone().rows().err(), Some(Refusal::ColumnCount));
            assert_eq!(refusal(OneByte), Some(Refusal::ColumnCount));
            assert_eq!([NoGuesses, Exact].map(refusal), [None, None]);
        }
    }

    #[test]
    fn ways_are_the_codes_of_the_header_and_none_is_the_default() {
        assert_eq!([NoGuesses, OneByte, Exact].map(|way| way as u64), [0, 1, 2]);
        assert_eq!(Rebuilding::default(), NoGuesses);
    }

    #[test]
    fn a_cell_has_its_row_id() {
        for way in [NoGuesses, OneByte, Exact] {
            let records = cells(way, &CELL, 100, &HINTS).unwrap();
            assert_eq!(records[0].row.offset, 102);
            assert_eq!(records[0].row.id, Some(7));
            assert_eq!(records[0].row.source, Source::CarvedIntraPage(100));
            assert_eq!(
                records[0].values().unwrap(),
                [Value::Integer(42), Value::Text("hipik")]
            );
        }
    }

    #[test]
    fn a_lost_header_length_is_made_up() {
        assert_eq!(cells(NoGuesses, &CELL[3..], 0, &HINTS), Ok(vec![]));
        for way in [OneByte, Exact] {
            let records = cells(way, &CELL[3..], 0, &HINTS).unwrap();
            assert_eq!(records[0].row.offset, 0);
            assert_eq!(records[0].row.consumed, 8);
            assert_eq!(records[0].row.id, None);
            assert_eq!(records[0].row.source, Source::CarvedIntraPage(90));
            assert_eq!(
                records[0].values().unwrap(),
                [Value::Integer(42), Value::Text("hipik")]
            );
        }
    }

    #[test]
    fn padded_headers_are_marked() {
        let first = |way, payload: &[u8]| {
            let row = cells(way, payload, 0, &HINTS).unwrap()[0].row;
            (row.offset, row.id.is_some(), row.padded)
        };
        for way in [OneByte, Exact] {
            assert_eq!(first(way, &CELL), (2, true, false));
            // The record's length, which does not count; the header's length; a type.
            let length = [&[0x80], &CELL[..]].concat();
            assert_eq!(first(way, &length), (3, true, false));
            let header = [&[10, 7, 0x80, 4], &CELL[3..]].concat();
            assert_eq!(first(way, &header), (2, true, true));
            let types = [&[10, 7, 4, 0x80], &CELL[3..]].concat();
            assert_eq!(first(way, &types), (2, true, true));
            assert_eq!(first(way, &CELL[3..]), (0, false, false));
        }
        // Of a rebuilt row the types alone are there.
        let types = [&[1, 0x80], &CELL[4..]].concat();
        assert_eq!(first(Exact, &types), (0, false, true));
        assert_eq!(first(OneByte, &types), (0, false, true));
    }

    #[test]
    fn neither_list_holds_the_other() {
        let starts = |way, payload: &[u8], hints: &[Hint]| -> Vec<u64> {
            let records = cells(way, payload, 0, hints).unwrap();
            records.iter().map(|record| record.row.offset).collect()
        };
        // A type 15 in two bytes: its text is the byte behind them, or the second of them.
        let text = [0x80, 15];
        assert_eq!(starts(OneByte, &text, &[Hint::Text]), [0]);
        assert!(starts(Exact, &text, &[Hint::Text]).is_empty());
        let first = [0x80, 15, 8, b'n'];
        let hints = [Hint::Text, Hint::Integer];
        assert!(!starts(OneByte, &first, &hints).contains(&0));
        assert!(starts(Exact, &first, &hints).contains(&0));
    }

    #[test]
    fn one_byte_makes_up_a_length_for_fewer_columns() {
        let rows = |way, columns| {
            let (payload, hints) = (vec![8; columns], vec![Hint::Integer; columns]);
            cells(way, &payload, 0, &hints).map(|records| records.len())
        };
        assert_eq!(rows(OneByte, MOST_ONE_BYTE_COLUMNS), Ok(1));
        assert_eq!(
            rows(OneByte, MOST_ONE_BYTE_COLUMNS + 1),
            Err(Refusal::ColumnCount)
        );
        assert_eq!(rows(Exact, MOST_ONE_BYTE_COLUMNS + 1), Ok(1));
        assert_eq!(rows(Exact, MOST_COLUMNS), Ok(1));
        assert_eq!(rows(NoGuesses, MOST_COLUMNS), Ok(0));
        for way in [NoGuesses, Exact] {
            assert_eq!(rows(way, MOST_COLUMNS + 1), Err(Refusal::ColumnCount));
        }
    }

    #[test]
    fn rows_that_take_more_memory_are_refused() {
        let rows = |memory| {
            let block = parse_cells_from_freeblock(&[0; 100], 0, &[Hint::Null]).rebuilding(Exact);
            block.memory(memory).rows().map(|records| records.len())
        };
        let enough = 100 * row_bytes(1);
        assert_eq!(rows(enough), Ok(100));
        assert_eq!(rows(enough - 1), Err(Refusal::NoRoom));
        assert_eq!(rows(0), Err(Refusal::NoRoom));
    }

    #[test]
    fn what_is_not_there_is_refused_or_has_no_rows() {
        for way in [NoGuesses, OneByte, Exact] {
            let walk = scan_page_gaps(&[], 512, &[]).rebuilding(way);
            assert!(walk.rows().unwrap().next().is_none());
            let page = scan_page_gap(&[], 512, 1, &HINTS).rebuilding(way);
            assert_eq!(page.rows().unwrap_err(), Refusal::NoSuchPage);
            let slice = scan_single_page_gap(&[], 0, 0, &HINTS).rebuilding(way);
            assert_eq!(slice.rows().unwrap().len(), 0);
            assert_eq!(cells(way, &[], 0, &[]), Err(Refusal::ColumnCount));
        }
    }
}
