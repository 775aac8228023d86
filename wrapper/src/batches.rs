//! Rows that stand one behind the other, a batch at a time: where the lists are full, the call is made again on what is left.

use crate::door;
use crate::lists::Lists;
use crate::{Record, Refusal};

/// The rows of a batch. The last two modes of a block find no more than two, so what is left behind a batch begins with a row of the
/// first.
const ROOM: usize = 64;

/// The call, with what it is lent beside the bytes and the base.
#[derive(Clone, Debug)]
pub(crate) enum Call {
    /// By learned types.
    Unallocated(Vec<u64>),
    /// In three modes, of so many columns.
    Freeblock(usize),
}

impl Call {
    fn columns(&self) -> usize {
        match self {
            Call::Unallocated(types) => types.len(),
            Call::Freeblock(columns) => *columns,
        }
    }

    fn make(&self, bytes: &[u8], base: u64, lists: &mut Lists) -> door::Answer<1> {
        let Lists { rows, cols, .. } = lists;
        match self {
            Call::Unallocated(types) => door::carve_unallocated(bytes, types, base, rows, cols),
            Call::Freeblock(columns) => door::carve_freeblock(bytes, base, *columns, rows, cols),
        }
    }
}

/// The rows of a region or a block; made by [`carve_unallocated`](crate::carve_unallocated) and
/// [`carve_freeblock`](crate::carve_freeblock). It holds no more than 64 of them at a time, however many there are.
#[derive(Debug)]
pub struct Carved<'a> {
    call: Call,
    bytes: &'a [u8],
    base: u64,
    /// The batch is of the bytes from `start` on, has `filled` rows, and `given` of them were handed out.
    start: usize,
    lists: Lists,
    filled: usize,
    given: usize,
    /// A row behind the batch found no room.
    more: bool,
}

impl<'a> Carved<'a> {
    pub(crate) fn new(call: Call, bytes: &'a [u8], base: u64) -> Result<Carved<'a>, Refusal> {
        let mut carved = Carved {
            lists: Lists::new(ROOM, call.columns())?,
            call,
            bytes,
            base,
            start: 0,
            filled: 0,
            given: 0,
            more: false,
        };
        carved.go_on(0)?;
        Ok(carved)
    }

    fn go_on(&mut self, start: usize) -> Result<(), Refusal> {
        let rest = &self.bytes[start..];
        let (number, [written]) = self.call.make(rest, self.base, &mut self.lists);
        self.more = Refusal::more(number)?;
        (self.start, self.filled, self.given) = (start, written as usize, 0);
        Ok(())
    }

    fn give(&mut self) -> Option<Record<'a>> {
        if self.given == self.filled {
            return None;
        }
        self.given += 1;
        let mut record = self.lists.record(self.given - 1, &self.bytes[self.start..]);
        record.row.offset += self.start as u64;
        Some(record.in_whole(self.bytes, self.start).used())
    }
}

impl<'a> Iterator for Carved<'a> {
    type Item = Record<'a>;

    fn next(&mut self) -> Option<Record<'a>> {
        let record = self.give()?;
        if self.given == self.filled && self.more {
            let end = record.row.offset - self.base + record.row.consumed;
            self.go_on(end as usize)
                .expect("what was carved once is not refused");
        }
        Some(record)
    }
}
