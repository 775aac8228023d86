//! One piece of work: a call with all that is lent to it, and the numbers that it is made with one after the other.

use crate::calls::{self, *};
use crate::case::{Case, List};
use crate::door;
use crate::ours::{self, Lent, Ours};
use crate::rust::{self, Rust};
use std::ops::Range;

pub struct Work {
    pub case: Case,
    /// Of the number that `swept` names, where it names one; a single call has one value.
    pub values: Range<u64>,
}

/// The number of a case that takes one value after the other, for the calls that are too short to be measured once.
pub fn swept(call: u8) -> Option<usize> {
    match call {
        READ_VARINT | BODY_LENGTH | MODES => Some(0),
        DECODE | COMPATIBLE | ATTEMPT | PAGE_DATA | RECOVER_PAGE => Some(1),
        READ_ENTRY | GAP_PAGE => Some(2),
        _ => None,
    }
}

impl Work {
    /// A single call.
    pub fn once(case: Case) -> Work {
        let first = swept(case.call).map_or(0, |i| case.numbers[i]);
        Work { case, values: first..first + 1 }
    }

    pub fn calls(&self) -> u64 {
        self.values.end - self.values.start
    }

    /// The case with one of the values in its place.
    pub fn at(&self, value: u64, case: &mut Case) {
        if let Some(i) = swept(case.call) {
            case.numbers[i] = value;
        }
    }
}

/// All that both sides need before they are called.
pub struct Prepared<'a> {
    pub rust: Option<Rust<'a>>,
    pub ours: Ours,
    pub lent: Lent,
}

impl<'a> Prepared<'a> {
    pub fn new(work: &'a Work) -> Prepared<'a> {
        // The first call of all asks the archive for its version.
        door::body_length(0);
        let lent = Lent::new(&work.case, calls::of(&work.case).lists);
        Prepared { rust: rust::of(&work.case), ours: ours::of(work.case.call), lent }
    }

    pub fn run_ours(&mut self, work: &Work) {
        (self.ours.all)(&work.case, &mut self.lent, work.values.clone());
    }
}

/// Whether the first list of a call holds bytes.
pub fn first_is_bytes(lists: &[List]) -> bool {
    lists.first().is_some_and(|list| list.cell.is_byte())
}
