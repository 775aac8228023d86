//! One attempt, and the region scan.

use crate::door::{self, MODES};
use crate::lists::{most, Lists};
use crate::{Entry, Hint, Refusal, State, Table, Value, DEFAULT_MEMORY};

/// Where a row was found, with its percent where there is one.
#[derive(Clone, Copy, Debug, PartialEq, Eq, Hash)]
#[non_exhaustive]
pub enum Source {
    /// In a region.
    Scan,
    /// In a freed block of a page.
    Freelist,
    /// In a page's gap or freed blocks.
    CarvedIntraPage(u64),
    /// By hints that were learned from other rows.
    CarvedUnalloc(u64),
}

/// Which of the three modes of [`carve_freeblock`](crate::carve_freeblock) read a row.
#[derive(Clone, Copy, Debug, PartialEq, Eq, Hash)]
#[non_exhaustive]
pub enum Mode {
    /// None of them.
    Plain,
    /// The header was there.
    Normal,
    /// The header was there, but for its length.
    ColumnsOnly,
    /// The first four bytes were taken for lost, and the first column with them. Bodies are read behind the types, though that of
    /// the lost column stands there: unless it has none, as a key, every value is read from the wrong place.
    FirstColMissing,
}

/// A row that was found.
#[derive(Clone, Copy, Debug, PartialEq)]
#[non_exhaustive]
pub struct Row {
    /// Of its first byte: the base, plus the row's place in the region, page or database.
    pub offset: u64,
    /// How many bytes it takes, header and bodies.
    pub consumed: u64,
    /// Its row id, where one was found; a scan finds none.
    pub id: Option<i64>,
    /// Where it was found.
    pub source: Source,
    /// The share of the columns that suit their hints, or less where the row was not read whole; that of its mode, where
    /// there are no hints.
    pub confidence: f32,
    /// How it was read.
    pub mode: Mode,
    /// The table's index, where tables are lent, else 0; [`Record::table`] has the table itself, with its name.
    pub table: usize,
    /// Whether its header's length or a type that was read for it is padded ([`Varint::padded`](crate::Varint::padded)): a strong
    /// hint that the row is none. Guesses and rows of [`Mode::ColumnsOnly`] and [`Mode::FirstColMissing`] have no header
    /// length, so there it tells of types alone. The record's length and the row id of a cell do not count.
    pub padded: bool,
}

impl Row {
    pub(crate) fn of(words: &[u64]) -> Row {
        let percent = words[5];
        Row {
            offset: words[0],
            consumed: words[1],
            id: (words[2] == 1).then_some(words[3] as i64),
            source: match words[4] {
                0 => Source::Scan,
                1 => Source::Freelist,
                2 => Source::CarvedIntraPage(percent),
                3 => Source::CarvedUnalloc(percent),
                other => unreachable!("a source is 0 to 3, not {other}"),
            },
            confidence: f32::from_bits(words[6] as u32),
            mode: match words[7] % MODES {
                0 => Mode::Plain,
                1 => Mode::Normal,
                2 => Mode::ColumnsOnly,
                _ => Mode::FirstColMissing,
            },
            table: (words[7] / MODES) as usize,
            padded: words[8] == 1,
        }
    }
}

/// A row with its column entries and the region that they lie in.
#[derive(Clone, Debug, PartialEq)]
#[non_exhaustive]
pub struct Record<'a> {
    /// The row.
    pub row: Row,
    /// One entry for each column; [`carve_freeblock`](crate::carve_freeblock) and
    /// [`carve_unallocated`](crate::carve_unallocated) may find fewer than they are told there are.
    pub entries: Vec<Entry>,
    region: &'a [u8],
    table: Option<&'a Table>,
}

impl<'a> Record<'a> {
    pub(crate) fn new(row: Row, entries: Vec<Entry>, region: &'a [u8]) -> Record<'a> {
        Record {
            row,
            entries,
            region,
            table: None,
        }
    }

    /// The value of each column.
    ///
    /// # Errors
    ///
    /// [`Refusal::Malformed`], where `entries` was changed to hold what [`Entry::read`] refuses.
    pub fn values(&self) -> Result<Vec<Value<'a>>, Refusal> {
        self.entries
            .iter()
            .map(|entry| entry.read(self.region))
            .collect()
    }

    /// The table that the row is of, where tables are lent.
    pub fn table(&self) -> Option<&'a Table> {
        self.table
    }

    /// Without the entries that pad its group.
    pub(crate) fn used(mut self) -> Self {
        self.entries.retain(|entry| entry.state != State::Unused);
        self
    }

    /// With its entries in the whole, of which its region was the part from `start` on.
    pub(crate) fn in_whole(mut self, whole: &'a [u8], start: usize) -> Self {
        for entry in &mut self.entries {
            if entry.state == State::Body {
                entry.start += start as u64;
            }
        }
        self.region = whole;
        self
    }

    /// As a row of the table with that index.
    pub(crate) fn of_table(mut self, index: usize, table: &'a Table) -> Self {
        self.row.table = index;
        self.table = Some(table);
        self
    }
}

pub(crate) fn codes(hints: &[Hint]) -> Vec<u8> {
    hints.iter().map(|&hint| hint as u8).collect()
}

/// The row that starts at an offset of the region, if there is one. `base` is where the region lies in its file.
///
/// # Errors
///
/// [`Refusal::ColumnCount`] for the number of hints, [`Refusal::TooLarge`] and [`Refusal::BaseTooFar`].
pub fn try_parse_record<'a>(
    region: &'a [u8],
    hints: &[Hint],
    base: u64,
    offset: usize,
) -> Result<Option<Record<'a>>, Refusal> {
    let codes = codes(hints);
    let mut lists = Lists::new(1, codes.len())?;
    let Lists { rows, cols, .. } = &mut lists;
    let (number, [written, _, _]) =
        door::try_parse_record(region, &codes, base, offset, rows, cols);
    Refusal::check(number)?;
    Ok((written == 1).then(|| lists.record(0, region)))
}

/// All rows of a region, one behind the other. `base` is where the region lies in its file. For the rest see [`Scan`].
///
/// The rows rise, start before the last two bytes and do not overlap. They are the only ones like that of which each is what
/// [`try_parse_record`] finds at its offset, and which cover every offset before the last two at which that finds a row:
/// it is proved (docs/RULES.md, 4.17).
///
/// # Errors
///
/// Those of [`Scan::rows`].
pub fn scan<'a>(region: &'a [u8], hints: &[Hint], base: u64) -> Result<Rows<'a>, Refusal> {
    Scan::new(region, hints).base(base).rows()
}

/// A scan that is to be made.
///
/// ```
/// use phsarodil::{Hint, Scan};
///
/// let region = [0x03, 0x01, 0x17, 0x2a, 0x68, 0x69, 0x70, 0x69, 0x6b].repeat(7);
/// let rows = Scan::new(&region, &[Hint::Integer, Hint::Text])
///     .base(4096)
///     .start(18)
///     .room(2)
///     .rows()?;
/// assert_eq!(rows.map(|record| record.row.offset).next(), Some(4096 + 18));
/// # Ok::<(), phsarodil::Refusal>(())
/// ```
#[derive(Clone, Debug)]
#[must_use = "`rows` makes the scan"]
pub struct Scan<'a> {
    region: &'a [u8],
    codes: Vec<u8>,
    base: u64,
    start: usize,
    room: usize,
}

impl<'a> Scan<'a> {
    /// A scan of a whole region for rows of a table with these hints.
    pub fn new(region: &'a [u8], hints: &[Hint]) -> Scan<'a> {
        Scan {
            region,
            codes: codes(hints),
            base: 0,
            start: 0,
            room: 64,
        }
    }

    /// Where the region lies in its file, 0 if it is not said; it is added to row offsets alone.
    pub fn base(self, base: u64) -> Scan<'a> {
        Scan { base, ..self }
    }

    /// The first offset of the region that is tried, 0 if it is not said.
    pub fn start(self, start: usize) -> Scan<'a> {
        Scan { start, ..self }
    }

    /// How many rows the lent lists take at a time: 64 if it is not said, at least one, and no more than
    /// [`DEFAULT_MEMORY`] has room for. The rows are the same with any room, and so is [`Rows::header_bytes`] at the end: that
    /// scans which go on add up is proved (docs/RULES.md, 4.16).
    pub fn room(self, room: usize) -> Scan<'a> {
        Scan { room, ..self }
    }

    /// The rows; a refusal shows here, and none later.
    ///
    /// # Errors
    ///
    /// [`Refusal::ColumnCount`] for the number of hints, [`Refusal::TooLarge`] and [`Refusal::BaseTooFar`].
    pub fn rows(self) -> Result<Rows<'a>, Refusal> {
        // No row takes fewer than two bytes.
        let most = most(self.codes.len(), DEFAULT_MEMORY).min(self.region.len() / 2 + 1);
        let mut rows = Rows {
            lists: Lists::new(self.room.clamp(1, most), self.codes.len())?,
            place: self.start,
            scan: self,
            filled: 0,
            given: 0,
            more: true,
            header_bytes: 0,
        };
        rows.go_on()?;
        Ok(rows)
    }
}

/// The rows of a region; made by [`scan`] or [`Scan::rows`]. The lists hold a batch of them; when it is used up, the
/// scan goes on where it stopped.
#[derive(Debug)]
pub struct Rows<'a> {
    scan: Scan<'a>,
    lists: Lists,
    /// The batch has `filled` rows, of which `given` were handed out.
    filled: usize,
    given: usize,
    /// Where the scan stands; `more` says that a row there found no room.
    place: usize,
    more: bool,
    header_bytes: u64,
}

impl Rows<'_> {
    /// How many header bytes were read so far to decide what is a row; of the whole scan once it is through.
    pub fn header_bytes(&self) -> u64 {
        self.header_bytes
    }

    fn go_on(&mut self) -> Result<(), Refusal> {
        let Lists { rows, cols, .. } = &mut self.lists;
        let Scan {
            region,
            codes,
            base,
            ..
        } = &self.scan;
        let (number, [written, place, read]) =
            door::scan_region(region, codes, *base, self.place, rows, cols);
        self.more = Refusal::more(number)?;
        self.filled = written as usize;
        self.given = 0;
        self.place = place as usize;
        self.header_bytes += read;
        Ok(())
    }
}

impl<'a> Iterator for Rows<'a> {
    type Item = Record<'a>;

    fn next(&mut self) -> Option<Record<'a>> {
        if self.given == self.filled && self.more {
            self.go_on().expect("what was scanned once is not refused");
        }
        if self.given == self.filled {
            return None;
        }
        self.given += 1;
        Some(self.lists.record(self.given - 1, self.scan.region))
    }
}

#[cfg(test)]
mod tests {
    use super::*;
    use crate::{LARGEST_BASE, LARGEST_REGION, MOST_COLUMNS};

    const HIPIK: [u8; 9] = [0x03, 0x01, 0x17, 0x2a, 0x68, 0x69, 0x70, 0x69, 0x6b];
    const HINTS: [Hint; 2] = [Hint::Integer, Hint::Text];

    #[test]
    fn a_record_is_found_with_its_values() {
        let mut scan = scan(&HIPIK, &HINTS, 1000).unwrap();
        let record = scan.next().unwrap();
        assert_eq!(
            record.row,
            Row {
                offset: 1000,
                consumed: 9,
                id: None,
                source: Source::Scan,
                confidence: 1.0,
                mode: Mode::Plain,
                table: 0,
                padded: false
            }
        );
        assert_eq!(
            record.entries[1],
            Entry {
                state: State::Body,
                kind: 23,
                start: 4,
                length: 5
            }
        );
        assert_eq!(
            record.values().unwrap(),
            [Value::Integer(42), Value::Text("hipik")]
        );
        assert_eq!(scan.next(), None);
        assert_eq!(scan.header_bytes(), 3);
    }

    #[test]
    fn a_torn_record_is_not_found() {
        let mut scan = scan(&HIPIK[..8], &HINTS, 0).unwrap();
        assert_eq!(scan.next(), None);
        assert_eq!(scan.header_bytes(), 8);
    }

    #[test]
    fn a_column_that_does_not_suit_takes_from_the_confidence() {
        let found: Vec<_> = scan(&HIPIK, &[Hint::Integer, Hint::Real], 0)
            .unwrap()
            .collect();
        assert_eq!(found.len(), 1);
        assert_eq!(found[0].row.confidence, 0.5);
    }

    #[test]
    fn a_padded_header_is_marked() {
        let note = "n".repeat(58);
        let marked = |header: &[u8], bodies: &[u8]| {
            // Behind a byte that begins no row.
            let region = [&[0x00], header, bodies].concat();
            let rows: Vec<Row> = scan(&region, &HINTS, 0).unwrap().map(|r| r.row).collect();
            let attempt = try_parse_record(&region, &HINTS, 0, 1).unwrap().unwrap();
            assert_eq!(rows, [attempt.row]);
            attempt.row.padded
        };
        assert!(!marked(&[0x03, 0x01, 0x17], b"*hipik"));
        // A header length, a type; and one that runs past the header's end, where the integer is read from.
        assert!(marked(&[0x80, 0x04, 0x01, 0x17], b"*hipik"));
        assert!(marked(&[0x04, 0x80, 0x01, 0x17], b"*hipik"));
        assert!(marked(&[0x04, 0x01, 0x80, 0x17], b"*hipik"));
        assert!(marked(&[0x03, 0x01, 0x80, 0x17], b"hipik"));
        // A type that needs its two bytes.
        let long = [b"*", note.as_bytes()].concat();
        assert!(!marked(&[0x04, 0x01, 0x81, 0x01], &long));
        assert!(marked(&[0x05, 0x01, 0x80, 0x81, 0x01], &long));
        // A header length that does.
        let hints = [Hint::Integer; 127];
        let types = [&[0x81, 0x01][..], &[8; 127]].concat();
        let wide = try_parse_record(&types, &hints, 0, 0).unwrap().unwrap();
        assert!(!wide.row.padded);
    }

    #[test]
    fn any_room_finds_the_same() {
        let region = HIPIK.repeat(7);
        let from_five = Scan::new(&region, &HINTS).base(5);
        let mut whole = from_five.clone().room(100).rows().unwrap();
        let all: Vec<_> = whole.by_ref().collect();
        assert_eq!(
            all.iter().map(|r| r.row.offset).collect::<Vec<_>>(),
            [5, 14, 23, 32, 41, 50, 59]
        );
        for room in (0..9).chain([usize::MAX]) {
            let mut scan = from_five.clone().room(room).rows().unwrap();
            assert_eq!(scan.by_ref().collect::<Vec<_>>(), all, "room {room}");
            assert_eq!(scan.header_bytes(), whole.header_bytes(), "room {room}");
        }
        let later = from_five.start(18).room(2).rows().unwrap();
        assert_eq!(later.collect::<Vec<_>>(), all[2..]);
    }

    #[test]
    fn one_attempt() {
        let region = [&[0xff], &HIPIK[..]].concat();
        assert_eq!(try_parse_record(&region, &HINTS, 0, 0), Ok(None));
        assert_eq!(try_parse_record(&region, &HINTS, 0, usize::MAX), Ok(None));
        let record = try_parse_record(&region, &HINTS, 7, 1).unwrap().unwrap();
        assert_eq!(record.row.offset, 8);
        assert_eq!(
            record.values().unwrap(),
            [Value::Integer(42), Value::Text("hipik")]
        );
    }

    #[test]
    fn refusals_come_by_rising_number() {
        let large = vec![0; LARGEST_REGION + 1];
        let refused = |region: &[u8], hints: &[Hint], base| {
            let refusal = scan(region, hints, base).map(|_| ()).unwrap_err();
            assert_eq!(try_parse_record(region, hints, base, 0), Err(refusal));
            refusal
        };
        assert_eq!(refused(&large, &[], u64::MAX), Refusal::ColumnCount);
        assert_eq!(
            refused(&HIPIK, &[Hint::Any; MOST_COLUMNS + 1], 0),
            Refusal::ColumnCount
        );
        assert_eq!(refused(&large, &HINTS, u64::MAX), Refusal::TooLarge);
        assert_eq!(
            refused(&HIPIK, &HINTS, LARGEST_BASE + 1),
            Refusal::BaseTooFar
        );
        assert!(scan(&large[1..], &[Hint::Any; MOST_COLUMNS], LARGEST_BASE).is_ok());
        assert!(scan(&[], &HINTS, 0).unwrap().next().is_none());
    }
}
