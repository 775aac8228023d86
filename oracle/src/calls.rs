//! The calls of the C interface: for each, the answer by the rules and the answer of the given Rust. A new call is a
//! line here, a case in server/server.c, and a file of cases.

pub mod carve;
pub mod entry;
pub mod forms;
pub mod freeblock;
pub mod gap;
pub mod learn;
pub mod page;
pub mod scan;
pub mod sheet;
pub mod statement;
pub mod value;

use crate::case::{Answer, Case, Cell, List};
use crate::rules::limits::Limits;

/// What the given Rust says of an answer.
#[derive(Clone, Debug, PartialEq, Eq)]
pub enum Given {
    Agrees,
    Differs(String),
    /// The case is outside the domain for comparing; the rules alone decide.
    NotAsked,
}

pub struct Call {
    pub name: &'static str,
    pub numbers: usize,
    pub slices: usize,
    /// Slices of words.
    pub words: usize,
    /// The words of `out`.
    pub out: usize,
    pub lists: &'static [List],
    pub answer: fn(&Limits, &Case) -> Answer,
    pub given: fn(&Case, &Answer) -> Given,
}

pub const READ_VARINT: u8 = 1;
pub const BODY_LENGTH: u8 = 2;
pub const DECODE: u8 = 3;
pub const READ_ENTRY: u8 = 4;
pub const VIEW_ENTRY: u8 = 5;
pub const COMPATIBLE: u8 = 6;
pub const ATTEMPT: u8 = 7;
pub const SCAN: u8 = 8;
pub const STATEMENT: u8 = 9;
pub const SEARCH: u8 = 10;
pub const PAGE_DATA: u8 = 11;
pub const LEAVES: u8 = 12;
pub const RECOVER: u8 = 13;
pub const RECOVER_PAGE: u8 = 14;
pub const RECOVER_SLICE: u8 = 15;
pub const GAPS: u8 = 16;
pub const GAP_PAGE: u8 = 17;
pub const GAP_SLICE: u8 = 18;
pub const BLOCK: u8 = 19;
pub const MODES: u8 = 20;
pub const LEARN: u8 = 21;
pub const UNALLOC: u8 = 22;
pub const COLUMN_HINTS: u8 = 23;

/// The two readings of a statement.
pub const READINGS: [u8; 2] = [STATEMENT, COLUMN_HINTS];

const FLAGS: List = List { label: "flags", cell: Cell::Flag };
const STACK: List = List { label: "stack", cell: Cell::Word };
const ROWS: List = List { label: "rows", cell: Cell::Row };
const ENTRIES: List = List { label: "entries", cell: Cell::Entry };

const HINTS: &[List] = &[List { label: "hints", cell: Cell::Byte }];
const PLACES: &[List] = &[List { label: "places", cell: Cell::Word }];
const TYPES: &[List] = &[List { label: "types", cell: Cell::Word }];
const ROWS_AND_ENTRIES: &[List] = &[ROWS, ENTRIES];
const WALK_AND_LEAVES: &[List] = &[FLAGS, STACK, List { label: "leaves", cell: Cell::Word }];
const WALK_AND_ROWS: &[List] = &[FLAGS, STACK, ROWS, ENTRIES];

/// The call with the number n stands at n - 1.
pub const CALLS: &[Call] = &[
    call("read_varint", (1, 1, 4), &[], value::varint, value::given_varint),
    call("body_length", (1, 0, 2), &[], value::body, value::given_body),
    call("decode_serial_type", (2, 1, 4), &[], value::decode, value::given_decode),
    call("read_entry", (4, 1, 4), &[], entry::read, entry::given_read),
    call("view_entry", (4, 1, 2), &[], entry::view, entry::given_view),
    call("is_compatible", (2, 0, 1), &[], value::compatible, value::given_compatible),
    call("try_parse_record", (2, 2, 3), ROWS_AND_ENTRIES, scan::attempt, scan::given_attempt),
    call("scan_region", (2, 2, 3), ROWS_AND_ENTRIES, scan::scan, scan::given_scan),
    call("from_create_sql", (0, 1, 1), HINTS, statement::statement, statement::given_statement),
    call("boyer_moore_search", (0, 2, 1), PLACES, statement::search, statement::given_search),
    call("get_page_data", (2, 1, 3), &[], page::data, page::given_data),
    call("collect_leaf_pages", (2, 1, 1), WALK_AND_LEAVES, page::leaves, page::given_leaves),
    Call {
        words: 2,
        ..call("recover_freeblocks", (1, 2, 1), WALK_AND_ROWS, freeblock::tables, freeblock::given_tables)
    },
    call("recover_page_freeblocks", (2, 2, 1), ROWS_AND_ENTRIES, freeblock::page, freeblock::given_page),
    call("recover_slice_freeblocks", (2, 2, 1), ROWS_AND_ENTRIES, freeblock::slice, freeblock::given_slice),
    Call { words: 2, ..call("scan_page_gaps", (2, 2, 1), WALK_AND_ROWS, gap::tables, gap::given_tables) },
    call("scan_page_gap", (3, 2, 1), ROWS_AND_ENTRIES, gap::page, gap::given_page),
    call("scan_single_page_gap", (3, 2, 1), ROWS_AND_ENTRIES, gap::slice, gap::given_slice),
    call("parse_cells_from_freeblock", (2, 2, 1), ROWS_AND_ENTRIES, gap::block, gap::given_block),
    call("carve_freeblock", (2, 1, 1), ROWS_AND_ENTRIES, carve::modes, carve::given_modes),
    Call { words: 1, ..call("learn_signatures", (1, 1, 1), TYPES, learn::learn, learn::given_learn) },
    Call { words: 1, ..call("carve_unallocated", (1, 1, 1), ROWS_AND_ENTRIES, learn::carve, learn::given_carve) },
    call("column_hints", (0, 1, 1), HINTS, statement::columns, statement::given_columns),
];

impl Call {
    /// Whether a case has as many numbers, slices and lists as the call.
    pub fn takes(&self, case: &Case) -> bool {
        let shape = (case.numbers.len(), case.slices.len(), case.words.len(), case.lists.len());
        shape == (self.numbers, self.slices, self.words, self.lists.len())
    }

    pub fn writes_rows(&self) -> bool {
        self.lists.iter().any(|list| list.cell == Cell::Row)
    }
}

const fn call(
    name: &'static str,
    (numbers, slices, out): (usize, usize, usize),
    lists: &'static [List],
    answer: fn(&Limits, &Case) -> Answer,
    given: fn(&Case, &Answer) -> Given,
) -> Call {
    Call { name, numbers, slices, words: 0, out, lists, answer, given }
}

pub fn of(case: &Case) -> &'static Call {
    &CALLS[case.call as usize - 1]
}

/// The way in which headers are to be rebuilt, by its code: the first number of the calls that do so. Then the other numbers.
pub fn rebuilding(case: &Case) -> (Option<u64>, &[u64]) {
    match case.call {
        GAPS..=BLOCK => (Some(case.numbers[0]), &case.numbers[1..]),
        _ => (None, &case.numbers),
    }
}

/// Agrees, or differs with both sides shown.
pub fn held<T: PartialEq + std::fmt::Debug>(what: &str, rust: T, rules: T) -> Given {
    if rust == rules {
        Given::Agrees
    } else {
        Given::Differs(format!("{what}: the Rust says {rust:?}, the rules {rules:?}"))
    }
}

/// The first of them that does not agree.
pub fn all(parts: impl IntoIterator<Item = Given>) -> Given {
    parts.into_iter().find(|g| *g != Given::Agrees).unwrap_or(Given::Agrees)
}
