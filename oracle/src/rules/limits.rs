//! The numbers of the rules. They stand in a value so that the oracle's own test can change one.

use crate::rules::statement::Reading;
use crate::rules::varint::written;

#[derive(Clone, Debug)]
pub struct Limits {
    pub columns: usize,
    /// The ways of rebuilding headers: the code of each, and the most columns that it takes.
    pub ways: &'static [(u64, usize)],
    /// Whether headers are made up in a way, and whether cells have rows in it.
    pub guesses: fn(u64) -> bool,
    pub cells: fn(u64) -> bool,
    pub hint: u8,
    pub region: usize,
    pub base: u64,
    pub statement: usize,
    pub least_header: u64,
    pub most_header: u64,
    pub consumed: u64,
    /// How many bytes of a varint may ask for more.
    pub more_bytes: usize,
    pub tables: usize,
    pub least_page: u64,
    pub most_page: u64,
    /// Where the b-tree header stands on page 1.
    pub first_header: usize,
    pub leaf: u8,
    pub interior: u8,
    pub leaf_header: usize,
    pub interior_header: usize,
    pub least_block: usize,
    /// How many places of a free block may begin a row.
    pub starts: usize,
    /// What confidence is multiplied with in a free block.
    pub freed: f32,
    /// The content start that 0 stands for.
    pub whole_page: usize,
    /// How many blocks of a chain the gap's carver looks at.
    pub chain_steps: usize,
    /// What confidence is multiplied with where a header is rebuilt, and how many bytes such a row has at most.
    pub rebuilt: f32,
    pub rebuilt_consumed: u64,
    /// The most bytes of types behind a header length that is made up exactly.
    pub type_bytes: usize,
    /// That length for so many bytes of types.
    pub made_up: fn(usize) -> u64,
    /// The percent of a confidence.
    pub percent: fn(f32) -> u64,
    /// The confidence of each of the three modes.
    pub modes: [f32; 3],
    /// How many bytes must be left for a row in the first mode, and how many are lost in the third.
    pub least_normal: usize,
    pub lost: usize,
    /// How many rows may be learned from.
    pub learned_rows: usize,
    /// The type that the integers 0 and 1 count as.
    pub zero_and_one: u64,
    /// What other integers count as: up to so many bits, that type.
    pub integers: &'static [(u32, u64)],
    /// Which of two types that are as common as each other is learned.
    pub tie: fn(u64, u64) -> u64,
    /// The percent of so many matched columns of so many.
    pub matched: fn(usize, usize) -> u64,
    /// How many bytes a learned attempt needs before those of its types.
    pub before_types: usize,
    pub marks: Marks,
    pub by_format: ByFormat,
}

/// What the reading of statements by the format goes by; words are raised.
#[derive(Clone, Debug)]
pub struct ByFormat {
    pub reading: Reading,
    /// Whether a byte ends the first word of a piece, as a blank does.
    pub ends: fn(u8) -> bool,
    /// Whether that word makes the piece a constraint that begins with another.
    pub constraint: fn(&[u8], &[u8]) -> bool,
    /// Whether a column of a type may be the key, and the hint that it then has.
    pub key_type: fn(&[u8]) -> bool,
    pub key: u8,
    /// Whether the words behind KEY make it a column like any other.
    pub descending: fn(&[&[u8]]) -> bool,
}

/// Which padded numbers mark a row.
#[derive(Clone, Debug)]
pub struct Marks {
    /// Whether a number that was read from so many bytes is padded: there are fewer that have its value.
    pub padded: fn(u64, usize) -> bool,
    /// The mark of a header, out of that of its length and that of its types.
    pub header: fn(bool, bool) -> bool,
    /// The mark of types, out of that of those before the last and that of the last.
    pub types: fn(bool, bool) -> bool,
    /// Whether rows of freed blocks have their mark.
    pub freed: bool,
    /// Whether what stands before a cell's record counts.
    pub payload_length: bool,
    pub row_id: bool,
    /// Whether types count that are in the header and are not read, and a length that is made up.
    pub unread: bool,
    pub made_up: bool,
}

/// The codes of the ways in which headers are rebuilt; in the first none is.
pub const NO_GUESSES: u64 = 0;
pub const ONE_BYTE: u64 = 1;
pub const EXACT: u64 = 2;

/// Nothing else knows these numbers. The last word of a row is not in the Rust.
pub const WORDS_PER_ROW: usize = 9;
pub const WORDS_IN_THE_RUST: usize = WORDS_PER_ROW - 1;
pub const WORDS_PER_ENTRY: usize = 4;

impl Limits {
    pub fn of_the_rules() -> Limits {
        Limits {
            columns: 510,
            ways: &[(NO_GUESSES, 510), (ONE_BYTE, 126), (EXACT, 510)],
            guesses: |code| code != NO_GUESSES,
            cells: |_| true,
            hint: 5,
            region: 16_777_216,
            base: 1 << 48,
            statement: 65_536,
            least_header: 2,
            most_header: 512,
            consumed: 65_536,
            more_bytes: 8,
            tables: 1024,
            least_page: 512,
            most_page: 65_536,
            first_header: 100,
            leaf: 0x0D,
            interior: 0x05,
            leaf_header: 8,
            interior_header: 12,
            least_block: 4,
            starts: 20,
            freed: 0.6,
            whole_page: 65_536,
            chain_steps: 1024,
            rebuilt: 0.9,
            rebuilt_consumed: 65_535,
            type_bytes: 510,
            made_up: |types| if types <= 126 { types as u64 + 1 } else { types as u64 + 2 },
            percent: |confidence| (confidence * 100.0) as u64,
            modes: [0.8, 0.5, 0.3],
            least_normal: 3,
            lost: 4,
            learned_rows: 1024,
            zero_and_one: 8,
            integers: &[(8, 1), (16, 2), (24, 3), (32, 4), (64, 6)],
            tie: u64::min,
            matched: |matched, columns| (matched * 100 / columns) as u64,
            before_types: 1,
            marks: Marks {
                padded: |value, width| width > 1 && written(value).len() < width,
                header: |length, types| length || types,
                types: |before, last| before || last,
                freed: true,
                payload_length: false,
                row_id: false,
                unread: false,
                made_up: false,
            },
            by_format: ByFormat {
                reading: Reading::ByFormat,
                ends: |byte| matches!(byte, b'(' | b')'),
                constraint: |first, word| first == word,
                key_type: |word| word == b"INTEGER",
                key: 4,
                descending: |behind| behind.first() == Some(&&b"DESC"[..]),
            },
        }
    }

    /// Whether a table may not have so many columns.
    pub fn bad_count(&self, columns: u64) -> bool {
        columns == 0 || columns > self.columns as u64
    }

    /// The first refusal of a call over one region that is lent no hints.
    pub fn columns_refusal(&self, region: &[u8], columns: u64, base: u64) -> Option<u64> {
        first(&[(1, self.bad_count(columns)), (3, region.len() > self.region), (4, base > self.base)])
    }

    /// The same in a call that may rebuild headers.
    pub fn bad_table(&self, columns: u64, rebuilding: Option<u64>) -> bool {
        let most = rebuilding.and_then(|code| self.most_columns(code));
        self.bad_count(columns) || most.is_some_and(|most| columns > most as u64)
    }

    /// Whether headers are to be rebuilt in a way that there is not.
    pub fn unknown(&self, rebuilding: Option<u64>) -> bool {
        rebuilding.is_some_and(|code| self.most_columns(code).is_none())
    }

    /// The most columns of the way that a code names, if it names one.
    fn most_columns(&self, code: u64) -> Option<usize> {
        self.ways.iter().find(|way| way.0 == code).map(|way| way.1)
    }

    /// The first refusal of a call over one region and one table, which may rebuild headers.
    pub fn region_refusal(&self, region: &[u8], hints: &[u8], base: u64, rebuilding: Option<u64>) -> Option<u64> {
        first(&[
            (1, self.bad_table(hints.len() as u64, rebuilding)),
            (2, self.unknown(rebuilding) || hints.iter().any(|&h| h > self.hint)),
            (3, region.len() > self.region),
            (4, base > self.base),
        ])
    }

    /// Whether the pages of a database may have so many bytes.
    pub fn page_size(&self, size: u64) -> bool {
        size.is_power_of_two() && (self.least_page..=self.most_page).contains(&size)
    }
}

/// The number of the first test that holds.
pub fn first(tests: &[(u64, bool)]) -> Option<u64> {
    tests.iter().find(|t| t.1).map(|t| t.0)
}

/// How many rows two lists hold, each with a group of `width` entries.
pub fn room(rows: usize, cols: usize, width: usize) -> usize {
    (rows / WORDS_PER_ROW).min(cols / (WORDS_PER_ENTRY * width))
}
