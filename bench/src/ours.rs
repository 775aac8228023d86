//! Our side: each call of the C interface over a case.

use crate::calls::*;
use crate::case::{Answer, Case, List};
use crate::door;
use crate::rules::limits::{WORDS_PER_ENTRY, WORDS_PER_ROW};
use crate::work::first_is_bytes;
use std::hint::black_box;
use std::ops::Range;

/// The lists that are lent to a call, as many as it has.
#[derive(Default)]
pub struct Lent {
    /// Page flags or hints.
    bytes: Vec<u8>,
    stack: Vec<u64>,
    /// Rows, leaves, places or types.
    rows: Vec<u64>,
    cols: Vec<u64>,
}

impl Lent {
    pub fn new(case: &Case, lists: &[List]) -> Lent {
        let mut lent = Lent::default();
        let mut sizes = case.lists.iter().copied();
        if first_is_bytes(lists) {
            lent.bytes = vec![0; sizes.next().unwrap_or(0)];
        }
        if lists.len() > 2 {
            lent.stack = vec![0; sizes.next().unwrap_or(0)];
        }
        lent.rows = vec![0; sizes.next().unwrap_or(0)];
        lent.cols = vec![0; sizes.next().unwrap_or(0)];
        lent
    }

    /// What a call wrote, as the oracle has it.
    pub fn written(&self, call: u8, written: usize, width: usize) -> Vec<Vec<u64>> {
        let bytes = |n: usize| self.bytes[..n].iter().map(|&b| u64::from(b)).collect();
        let sheet =
            || [self.rows[..WORDS_PER_ROW * written].to_vec(), self.cols[..WORDS_PER_ENTRY * width * written].to_vec()];
        let walk = || vec![bytes(self.bytes.len()), self.stack.clone()];
        match call {
            STATEMENT => vec![bytes(written)],
            SEARCH | LEARN => vec![self.rows[..written].to_vec()],
            LEAVES => [walk(), vec![self.rows[..written].to_vec()]].concat(),
            RECOVER | GAPS => [&walk()[..], &sheet()].concat(),
            _ if self.rows.is_empty() => Vec::new(),
            _ => sheet().to_vec(),
        }
    }
}

type One = Box<dyn Fn(&Case, &mut Lent, u64) -> (u64, Vec<u64>)>;
type All = Box<dyn Fn(&Case, &mut Lent, Range<u64>)>;

/// A call made with one value, for its answer, and with one value after the other, for its cost.
pub struct Ours {
    pub one: One,
    pub all: All,
}

impl Ours {
    /// All that the call leaves.
    pub fn answer(&self, case: &Case, lent: &mut Lent, value: u64, width: usize) -> Answer {
        let (number, out) = (self.one)(case, lent, value);
        let written = out.first().map_or(0, |&n| n as usize);
        Answer::new(number, out, lent.written(case.call, written, width))
    }
}

fn made<const N: usize>(call: impl Fn(&Case, &mut Lent, u64) -> door::Answer<N> + Copy + 'static) -> Ours {
    let one = move |case: &Case, lent: &mut Lent, value| {
        let (number, out) = call(case, lent, value);
        (number, out.to_vec())
    };
    let all = move |case: &Case, lent: &mut Lent, values| {
        for value in values {
            black_box(&call(case, lent, value));
        }
    };
    Ours { one: Box::new(one), all: Box::new(all) }
}

pub fn of(call: u8) -> Ours {
    match call {
        READ_VARINT => made(|c, _, v| door::read_varint(&c.slices[0], v as usize)),
        BODY_LENGTH => made(|_, _, v| door::body_length(v)),
        DECODE => made(|c, _, v| door::decode_serial_type(c.numbers[0], &c.slices[0], v as usize)),
        READ_ENTRY => made(|c, _, v| door::read_entry([c.numbers[0], c.numbers[1], v, c.numbers[3]], &c.slices[0])),
        COMPATIBLE => made(|c, _, v| door::is_compatible(c.numbers[0] as u8, v)),
        STATEMENT => made(|c, l, _| door::from_create_sql(&c.slices[0], &mut l.bytes)),
        SEARCH => made(|c, l, _| door::boyer_moore_search(&c.slices[0], &c.slices[1], &mut l.rows)),
        LEARN => made(|c, l, _| door::learn_signatures(&c.slices[0], c.numbers[0] as usize, &c.words[0], &mut l.rows)),
        PAGE_DATA | LEAVES | RECOVER | GAPS | RECOVER_PAGE | GAP_PAGE => of_database(call),
        _ => of_region(call),
    }
}

fn of_database(call: u8) -> Ours {
    match call {
        PAGE_DATA => made(|c, _, v| door::get_page_data(&c.slices[0], c.numbers[0], v)),
        LEAVES => made(|c, l, _| {
            let (db, size, root) = (&c.slices[0], c.numbers[0], c.numbers[1]);
            door::collect_leaf_pages(db, size, root, &mut l.bytes, &mut l.stack, &mut l.rows)
        }),
        RECOVER => made(|c, l, _| {
            let (walk, sheet) = ((&mut l.bytes[..], &mut l.stack[..]), [&mut l.rows[..], &mut l.cols]);
            door::recover_freeblocks(&c.slices[0], c.numbers[0], tables(c), &c.slices[1], walk, sheet)
        }),
        GAPS => made(|c, l, _| {
            let (walk, sheet) = ((&mut l.bytes[..], &mut l.stack[..]), [&mut l.rows[..], &mut l.cols]);
            door::scan_page_gaps(c.numbers[0], &c.slices[0], c.numbers[1], tables(c), &c.slices[1], walk, sheet)
        }),
        RECOVER_PAGE => made(|c, l, v| {
            let (db, hints) = (&c.slices[0], &c.slices[1]);
            door::recover_page_freeblocks(db, c.numbers[0], v, hints, &mut l.rows, &mut l.cols)
        }),
        _ => made(|c, l, v| {
            let (db, hints) = (&c.slices[0], &c.slices[1]);
            door::scan_page_gap(c.numbers[0], db, c.numbers[1], v, hints, &mut l.rows, &mut l.cols)
        }),
    }
}

fn tables(c: &Case) -> [&[u64]; 2] {
    [&c.words[0], &c.words[1]]
}

fn of_region(call: u8) -> Ours {
    match call {
        ATTEMPT => made(|c, l, v| {
            let (region, hints, base) = (&c.slices[0], &c.slices[1], c.numbers[0]);
            door::try_parse_record(region, hints, base, v as usize, &mut l.rows, &mut l.cols)
        }),
        SCAN => made(|c, l, _| {
            let (region, hints, base) = (&c.slices[0], &c.slices[1], c.numbers[0]);
            door::scan_region(region, hints, base, c.numbers[1] as usize, &mut l.rows, &mut l.cols)
        }),
        RECOVER_SLICE => made(|c, l, _| {
            let (head, base) = (c.numbers[0] as usize, c.numbers[1]);
            door::recover_slice_freeblocks(&c.slices[0], head, base, &c.slices[1], &mut l.rows, &mut l.cols)
        }),
        GAP_SLICE => made(|c, l, _| {
            let (page, hints, head, base) = (&c.slices[0], &c.slices[1], c.numbers[1] as usize, c.numbers[2]);
            door::scan_single_page_gap(c.numbers[0], page, head, base, hints, &mut l.rows, &mut l.cols)
        }),
        BLOCK => made(|c, l, _| {
            let (payload, hints, base) = (&c.slices[0], &c.slices[1], c.numbers[1]);
            door::parse_cells_from_freeblock(c.numbers[0], payload, base, hints, &mut l.rows, &mut l.cols)
        }),
        MODES => {
            made(|c, l, v| door::carve_freeblock(&c.slices[0], v, c.numbers[1] as usize, &mut l.rows, &mut l.cols))
        }
        _ => made(|c, l, _| door::carve_unallocated(&c.slices[0], &c.words[0], c.numbers[0], &mut l.rows, &mut l.cols)),
    }
}
