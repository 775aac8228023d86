//! Pages and databases to make cases of: leaves with free blocks, and interior pages.

use super::records::{damage, junk, record};
use crate::random::Random;

pub const LEAF: u8 = 0x0D;
pub const INTERIOR: u8 = 0x05;
pub const FIRST_HEADER: usize = 100;
pub const SIZES: [usize; 8] = [512, 1024, 2048, 4096, 8192, 16_384, 32_768, 65_536];

/// Writes a number of two bytes, as far as there are any.
pub fn put(page: &mut [u8], at: usize, value: usize) {
    for (i, byte) in (value as u16).to_be_bytes().into_iter().enumerate() {
        if let Some(cell) = page.get_mut(at + i) {
            *cell = byte;
        }
    }
}

/// A free block's next place and size.
pub fn link(page: &mut [u8], at: usize, next: usize, size: usize) {
    put(page, at, next);
    put(page, at + 2, size);
}

/// Makes a page a leaf with these payloads in its chain, as many as fit, the first behind the header.
pub fn leaf(page: &mut [u8], head: usize, payloads: &[Vec<u8>]) {
    page[head] = LEAF;
    let mut before = head + 1;
    let mut at = head + 8;
    for payload in payloads {
        let end = at + 4 + payload.len();
        if end > page.len() {
            return;
        }
        put(page, before, at);
        link(page, at, 0, 4 + payload.len());
        page[at + 4..end].copy_from_slice(payload);
        (before, at) = (at, end);
    }
}

/// Makes a page an interior one with these children, as many as fit; its cells stand at its end.
pub fn interior(page: &mut [u8], head: usize, right: u32, children: &[u32]) {
    page[head] = INTERIOR;
    page[head + 8..head + 12].copy_from_slice(&right.to_be_bytes());
    let fit = (page.len() - head - 12) / 6;
    put(page, head + 3, children.len().min(fit));
    for (i, child) in children.iter().take(fit).enumerate() {
        let cell = page.len() - 4 * (i + 1);
        put(page, head + 12 + 2 * i, cell);
        page[cell..cell + 4].copy_from_slice(&child.to_be_bytes());
    }
}

#[derive(Clone)]
pub struct Database {
    pub size: usize,
    pub bytes: Vec<u8>,
}

impl Database {
    pub fn new(size: usize, pages: usize) -> Database {
        Database { size, bytes: vec![0; size * pages] }
    }

    pub fn pages(&self) -> usize {
        self.bytes.len() / self.size
    }

    /// A page, counted from 1, and where its b-tree header stands.
    pub fn page(&mut self, number: usize) -> (&mut [u8], usize) {
        let head = if number == 1 { FIRST_HEADER } else { 0 };
        (&mut self.bytes[(number - 1) * self.size..][..self.size], head)
    }

    pub fn leaf(&mut self, number: usize, payloads: &[Vec<u8>]) {
        let (page, head) = self.page(number);
        leaf(page, head, payloads);
    }

    pub fn interior(&mut self, number: usize, right: u32, children: &[u32]) {
        let (page, head) = self.page(number);
        interior(page, head, right, children);
    }
}

/// A payload with a row in it as a rule, at one of the places that count or just behind them.
pub fn payload(random: &mut Random, hints: &[u8]) -> Vec<u8> {
    let before = if random.once_in(3) { random.below(24) } else { random.below(4) };
    let mut bytes = match random.below(3) {
        0 => vec![0; before],
        1 => random.bytes(before),
        _ => vec![random.pick(&[1, 0x80, 0xFF]); before],
    };
    bytes.extend(record(random, hints));
    if random.once_in(4) {
        damage(random, &mut bytes);
    }
    if random.once_in(2) {
        bytes.extend(junk(random));
    }
    bytes
}

/// Harm where it counts: in the header, in a link, or anywhere.
pub fn harm(random: &mut Random, page: &mut [u8], head: usize) {
    let first = usize::from(page[head + 1]) << 8 | usize::from(page[head + 2]);
    let at = match random.below(3) {
        0 => head + random.below(20),
        1 => first + random.below(4),
        _ => random.below(page.len()),
    };
    let byte = random.pick(&[0, 1, 4, 5, 8, 13, 0xFF]);
    if let Some(cell) = page.get_mut(at) {
        *cell = if random.once_in(2) { byte } else { *cell ^ 1 << random.below(8) };
    }
}
