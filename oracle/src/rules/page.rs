//! A page of a database, and the chain of free blocks on a page.

use crate::rules::limits::Limits;
use std::collections::HashSet;

/// A page, where it begins in its database, and where its b-tree header stands in it.
pub struct Page<'a> {
    pub bytes: &'a [u8],
    pub start: usize,
    pub header: usize,
}

/// How many pages are wholly in the database.
pub fn whole_pages(db: &[u8], size: u64) -> u64 {
    (db.len() as u64).checked_div(size).unwrap_or(0)
}

pub fn page<'a>(limits: &Limits, db: &'a [u8], size: u64, number: u64) -> Option<Page<'a>> {
    if number == 0 || number > whole_pages(db, size) {
        return None;
    }
    let start = ((number - 1) * size) as usize;
    let header = if number == 1 { limits.first_header } else { 0 };
    Some(Page { bytes: &db[start..][..size as usize], start, header })
}

/// The number in so many bytes, where they are all there.
pub fn number(bytes: &[u8], at: usize, width: usize) -> Option<usize> {
    let part = bytes.get(at..)?.get(..width)?;
    Some(part.iter().fold(0, |v, &b| v << 8 | usize::from(b)))
}

/// A free block, with the four bytes that hold the next one's place and its own size.
pub struct Block {
    pub start: usize,
    pub size: usize,
}

/// The free blocks of a page whose b-tree header stands at `head`, in the order of their chain.
pub fn chain(limits: &Limits, page: &[u8], head: usize) -> Vec<Block> {
    let mut blocks = Vec::new();
    let mut seen = HashSet::new();
    let mut start = head.checked_add(1).and_then(|at| number(page, at, 2)).unwrap_or(0);
    while start != 0 && start >= head + limits.leaf_header && seen.insert(start) {
        let (Some(next), Some(size)) = (number(page, start, 2), number(page, start + 2, 2)) else {
            break;
        };
        if size < limits.least_block || start + size > page.len() {
            break;
        }
        blocks.push(Block { start, size });
        start = next;
    }
    blocks
}
