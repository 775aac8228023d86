//! The walk from a root to the leaves of its tree.

use crate::rules::limits::Limits;
use crate::rules::page::{number, page, Page};
use std::collections::HashSet;

#[derive(Clone, Copy, Debug, PartialEq, Eq)]
pub enum End {
    Through,
    /// A page was pushed onto a full stack, or there were too few flags to begin with.
    NoSpace,
    /// What a leaf gives found no room.
    NoRoom,
}

/// The pages to look at, last in first out.
struct Stack {
    pages: Vec<u64>,
    room: usize,
    most: usize,
}

impl Stack {
    /// False where it is full.
    fn push(&mut self, page: u64) -> bool {
        let fits = self.pages.len() < self.room;
        if fits {
            self.pages.push(page);
            self.most = self.most.max(self.pages.len());
        }
        fits
    }
}

/// Hands each leaf to `leaf`, which says whether there was room, as soon as it comes off the stack. Answers with the
/// end how many pages stood on the stack at most.
pub fn walk(
    limits: &Limits,
    db: &[u8],
    size: u64,
    root: u64,
    room: usize,
    mut leaf: impl FnMut(u64, &Page) -> bool,
) -> (End, usize) {
    let mut stack = Stack { pages: Vec::new(), room, most: 0 };
    let mut expanded = HashSet::new();
    if !stack.push(root) {
        return (End::NoSpace, 0);
    }
    while let Some(number) = stack.pages.pop() {
        let Some(page) = page(limits, db, size, number).filter(|_| expanded.insert(number)) else {
            continue;
        };
        let kind = page.bytes[page.header];
        if kind == limits.leaf && !leaf(number, &page) {
            return (End::NoRoom, stack.most);
        }
        if kind == limits.interior && !children(limits, &page).into_iter().all(|c| stack.push(c)) {
            return (End::NoSpace, stack.most);
        }
    }
    (End::Through, stack.most)
}

/// The right child, then those of the cells by index. A pointer past the page ends them, a cell past it is skipped.
fn children(limits: &Limits, page: &Page) -> Vec<u64> {
    let word = |at: usize, width: usize| number(page.bytes, at, width);
    let mut all = Vec::from_iter(word(page.header + 8, 4));
    let pointers = page.header + limits.interior_header;
    for i in 0..word(page.header + 3, 2).unwrap_or(0) {
        let Some(cell) = word(pointers + 2 * i, 2) else {
            break;
        };
        all.extend(word(cell, 4));
    }
    all.into_iter().map(|c| c as u64).collect()
}
