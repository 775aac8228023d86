//! Rows out of the free blocks of a page.

use crate::rules::attempt::{attempt, Found};
use crate::rules::limits::Limits;
use crate::rules::page::{chain, Block};

/// The bytes of a block that hold the chain.
const LINK: usize = 4;

/// The first row of each block that has one, with its place in the page.
pub fn rows(limits: &Limits, page: &[u8], head: usize, hints: &[u8]) -> Vec<(usize, Found)> {
    chain(limits, page, head).iter().filter_map(|block| row(limits, page, block, hints)).collect()
}

fn row(limits: &Limits, page: &[u8], block: &Block, hints: &[u8]) -> Option<(usize, Found)> {
    let payload = page[..block.start + block.size].get(block.start + LINK..)?;
    let starts = 0..payload.len().min(limits.starts);
    let place = |v: usize| block.start + LINK + v;
    let (at, found) = starts.into_iter().find_map(|v| Some((place(v), attempt(limits, payload, hints, v).found?)))?;
    Some((at, Found { padded: found.padded && limits.marks.freed, ..found }))
}
