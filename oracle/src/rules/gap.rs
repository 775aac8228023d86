//! Rows out of a page's gap and of the cells in its free blocks.

use crate::rules::attempt::{attempt, attempt_on, judge, scan, types, Found};
use crate::rules::limits::{Limits, EXACT};
use crate::rules::page::number;
use crate::rules::varint::{whole, written};
use std::collections::HashSet;
use std::ops::Range;

/// The bytes of a block that hold the chain.
const LINK: usize = 4;

/// Where a row comes from.
#[derive(Clone, Copy, Debug, PartialEq, Eq)]
pub enum Origin {
    Gap,
    /// A cell in a block, with its row id.
    Cell(u64),
    /// Bytes of a block behind a made-up header length.
    Rebuilt,
}

pub struct Carved {
    pub at: usize,
    pub origin: Origin,
    pub found: Found,
}

impl Carved {
    pub fn confidence(&self, limits: &Limits) -> f32 {
        let suited = self.found.suited as f32 / self.found.kinds.len() as f32;
        if self.origin == Origin::Rebuilt {
            suited * limits.rebuilt
        } else {
            suited
        }
    }

    /// The same row in a slice that begins so far before.
    fn moved(self, by: usize) -> Carved {
        Carved { at: self.at + by, ..self }
    }
}

/// What rows are looked for: those that suit these hints, with headers rebuilt in that way, if in any.
#[derive(Clone, Copy)]
pub struct Sought<'a> {
    pub hints: &'a [u8],
    pub rebuilding: u64,
}

/// The rows of a page whose b-tree header stands at `head`: those of the gap, then those of each block.
pub fn rows(limits: &Limits, page: &[u8], head: usize, sought: Sought) -> Vec<Carved> {
    let mut rows = Vec::new();
    if let Some(gap) = gap(limits, page, head) {
        let found = scan(limits, &page[gap.clone()], sought.hints, 0, usize::MAX).rows;
        rows.extend(found.into_iter().map(|(o, found)| Carved { at: gap.start + o, origin: Origin::Gap, found }));
    }
    for payload in payloads(limits, page, head) {
        let start = payload.start;
        rows.extend(block_rows(limits, &page[payload], sought).into_iter().map(|row| row.moved(start)));
    }
    rows
}

/// Whether a page has a whole b-tree header there.
fn has_header(limits: &Limits, page: &[u8], head: usize) -> bool {
    page.len().checked_sub(limits.leaf_header).is_some_and(|last| head <= last)
}

/// From the end of the cell pointers to where cells begin.
fn gap(limits: &Limits, page: &[u8], head: usize) -> Option<Range<usize>> {
    if !has_header(limits, page, head) {
        return None;
    }
    let start = head + limits.leaf_header + 2 * number(page, head + 3, 2)?;
    let end = match number(page, head + 5, 2)? {
        0 => limits.whole_page,
        end => end,
    };
    (start < end && end <= page.len()).then_some(start..end)
}

/// What the blocks of a page hold behind their links, in the order of their chain. A bad size loses that block alone.
pub fn payloads(limits: &Limits, page: &[u8], head: usize) -> Vec<Range<usize>> {
    let mut payloads = Vec::new();
    let mut start = if has_header(limits, page, head) { number(page, head + 1, 2).unwrap_or(0) } else { 0 };
    for _ in 0..limits.chain_steps {
        let (Some(next), Some(size), true) = (number(page, start, 2), number(page, start + 2, 2), start != 0) else {
            break;
        };
        if size >= limits.least_block && start + size <= page.len() {
            payloads.push(start + LINK..start + size);
        }
        if next <= start {
            break;
        }
        start = next;
    }
    payloads
}

/// The rows of a block's payload: its cells, then the rebuilt ones that stand where no cell's row does.
pub fn block_rows(limits: &Limits, payload: &[u8], sought: Sought) -> Vec<Carved> {
    let mut rows = Vec::new();
    let way = sought.rebuilding;
    each_cell(limits, payload, sought.hints, |cell, found| {
        let found = found.filter(|_| (limits.cells)(way));
        rows.extend(found.map(|found| Carved { at: cell.start, origin: Origin::Cell(cell.id), found }));
    });
    let cells: HashSet<usize> = rows.iter().map(|row| row.at).collect();
    // Where no header is made up, no start has a row.
    let starts = if (limits.guesses)(way) { 0..payload.len() } else { 0..0 };
    let rebuilt = if way == EXACT { exact } else { one_byte };
    for at in starts.filter(|at| !cells.contains(at)) {
        let Some(mut found) = rebuilt(limits, &payload[at..], sought.hints) else {
            continue;
        };
        found.padded |= limits.marks.made_up;
        rows.push(Carved { at, origin: Origin::Rebuilt, found });
    }
    rows
}

/// What stands before a cell's payload, and where the payload starts.
pub struct Cell {
    pub length: u64,
    pub id: u64,
    pub start: usize,
    /// Whether it marks its row.
    pub padded: bool,
}

/// Hands over each cell that is looked at, and its row if it has one. A row's payload is stepped over.
pub fn each_cell(limits: &Limits, payload: &[u8], hints: &[u8], mut with: impl FnMut(&Cell, Option<Found>)) {
    let mut at = 0;
    while at < payload.len() {
        let mut step = 1;
        if let Some(cell) = cell(limits, payload, at) {
            let found = row_of(limits, payload, &cell, hints);
            if found.is_some() {
                step = cell.start + cell.length as usize - at;
            }
            with(&cell, found);
        }
        at += step;
    }
}

fn cell(limits: &Limits, payload: &[u8], at: usize) -> Option<Cell> {
    let length = whole(limits, payload, at)?;
    let id = whole(limits, payload, at + length.width)?;
    let padded = limits.marks.payload_length && length.padded || limits.marks.row_id && id.padded;
    let start = at + length.width + id.width;
    (length.value > 0).then_some(Cell { length: length.value, id: id.value, start, padded })
}

/// The row of just a cell's bytes. Its length is compared with what is left: the sum of both may pass the largest number.
fn row_of(limits: &Limits, payload: &[u8], cell: &Cell, hints: &[u8]) -> Option<Found> {
    let rest = &payload[cell.start..];
    let own = (cell.length <= rest.len() as u64).then(|| &rest[..cell.length as usize])?;
    let found = attempt(limits, own, hints, 0).found?;
    Some(Found { padded: found.padded || cell.padded, ..found })
}

/// An attempt on a made-up byte and these: the byte says that it and as many more as there are columns are the header.
/// Places here count without that byte.
fn one_byte(limits: &Limits, part: &[u8], hints: &[u8]) -> Option<Found> {
    let header = hints.len() as u64;
    let types = types(limits, part, 0, header, usize::MAX).ok()?;
    judge(part.len(), limits.rebuilt_consumed, hints, header, types)
}

/// An attempt on a made-up length and these, of which as many types as there are columns are the rest of the header. Places here
/// count without that length's own bytes, and the mark is that of the types alone.
fn exact(limits: &Limits, part: &[u8], hints: &[u8]) -> Option<Found> {
    let mut types = 0;
    let mut padded = false;
    for _ in hints {
        let kind = whole(limits, part, types)?;
        types += kind.width;
        padded = (limits.marks.types)(padded, kind.padded);
        if types > limits.type_bytes {
            return None;
        }
    }
    let own = written((limits.made_up)(types));
    let front = [&own, &part[..types]].concat();
    let found = attempt_on(limits, &front, own.len() + part.len(), hints).found?;
    let behind = |place: u64| place - own.len() as u64;
    Some(Found { header: behind(found.header), consumed: behind(found.consumed), padded, ..found })
}
