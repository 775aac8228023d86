//! The chain of free blocks of one page: every short one, loops, headers at every place, and random ones. Pages of a
//! size that a database has are given by their number too.

use super::databases::{harm, leaf, link, payload, put, SIZES};
use super::payloads;
use super::records::hints;
use super::regions::lists;
use crate::calls::{RECOVER_PAGE, RECOVER_SLICE};
use crate::case::Case;
use crate::random::Random;
use crate::rules::freeblock::rows;
use crate::rules::limits::{Limits, WORDS_PER_ROW};
use crate::runner::Sink;

/// The last header place that does not make the Rust panic; those behind it stand in the list of panics.
pub const LAST_HEAD: u64 = u64::MAX - 4;

pub fn all(sink: &mut dyn Sink, random: &mut Random, count: usize) {
    short(sink);
    long_chains(sink);
    payloads::long_rows(sink);
    sizes(sink);
    refusals(sink, &sample_at(100, 512));
    some(sink, random, count);
}

/// Those on short pages.
pub fn short(sink: &mut dyn Sink) {
    one_block(sink);
    two_blocks(sink);
    loops(sink);
    payloads::short_rows(sink);
    heads(sink);
    bases(sink);
    refusals(sink, &sample());
}

pub fn some(sink: &mut dyn Sink, random: &mut Random, count: usize) {
    for i in 0..count {
        match i % 64 {
            0 => rooms(sink, random),
            1..=4 => random_page(sink, random),
            5..=16 => random_links(sink, random),
            _ => random_slice(sink, random),
        }
    }
}

pub fn slice(sink: &mut dyn Sink, page: &[u8], head: usize, hints: &[u8], rows: usize) {
    let lists = lists(rows, hints.len());
    sink.put(Case::new(RECOVER_SLICE, &[head as u64, 0], &[page, hints], &lists));
}

/// The page as page 1 if its header stands where page 1's does, as page 2 if it stands at 0.
pub fn numbered(sink: &mut dyn Sink, page: &[u8], head: usize, hints: &[u8], rows: usize) {
    let lists = lists(rows, hints.len());
    let size = page.len() as u64;
    if head != 0 {
        sink.put(Case::new(RECOVER_PAGE, &[size, 1], &[page, hints], &lists));
    } else {
        let db = [&vec![0xFF; page.len()], page].concat();
        sink.put(Case::new(RECOVER_PAGE, &[size, 2], &[&db, hints], &lists));
    }
}

/// A page of so many bytes with rows of one column wherever one looks.
pub fn full_of_rows(length: usize) -> Vec<u8> {
    [2, 8].into_iter().cycle().take(length).collect()
}

/// Every place and every size of a single block.
fn one_block(sink: &mut dyn Sink) {
    const LENGTH: usize = 26;
    for head in [0, 3] {
        for start in (0..=LENGTH + 1).chain([255, 256, 65_535]) {
            for size in (0..=LENGTH + 1).chain([255, 256, 65_535]) {
                for next in [0, start, 8] {
                    let mut page = full_of_rows(LENGTH);
                    put(&mut page, head + 1, start);
                    link(&mut page, start, next, size);
                    slice(sink, &page, head, &[0], 2);
                }
            }
        }
    }
}

/// Two blocks with every place of the second: apart, overlapping, the same, before the header, past the page.
fn two_blocks(sink: &mut dyn Sink) {
    const LENGTH: usize = 28;
    for start in 7..LENGTH - 3 {
        for size in [3, 4, 5, 6, 9, LENGTH - start, LENGTH - start + 1] {
            for next in (0..LENGTH).chain([LENGTH, LENGTH + 1, 65_535]) {
                for next_size in [3, 4, 6, 8, LENGTH.saturating_sub(next), (LENGTH + 1).saturating_sub(next)] {
                    for last in [0, start, next, 12] {
                        let mut page = full_of_rows(LENGTH);
                        put(&mut page, 1, start);
                        link(&mut page, start, next, size);
                        link(&mut page, next, last, next_size);
                        slice(sink, &page, 0, &[0], 4);
                    }
                }
            }
        }
    }
}

/// Chains of up to many blocks that end, or go back to any of their blocks.
fn loops(sink: &mut dyn Sink) {
    for count in 1..=12 {
        for back in 0..=count {
            for stride in [6, 9] {
                let mut page = full_of_rows(8 + stride * count);
                let place = |i: usize| if i < count { 8 + stride * i } else { 0 };
                put(&mut page, 1, 8);
                for i in 0..count {
                    link(&mut page, place(i), place(if i + 1 == count { back } else { i + 1 }), stride);
                }
                slice(sink, &page, 0, &[0], count + 1);
                slice(sink, &page, 0, &[0], count - 1);
            }
        }
    }
}

fn long_chains(sink: &mut dyn Sink) {
    for length in [4096, 65_536] {
        let chain = overlapping(length);
        slice(sink, &chain, 0, &[0], 3);
        numbered(sink, &chain, 0, &[0, 5], 3);
    }
}

/// A block at every second place: each one's size is the next one's link.
fn overlapping(length: usize) -> Vec<u8> {
    let mut page = vec![0; length];
    put(&mut page, 1, 8);
    for at in (8..length).step_by(2) {
        put(&mut page, at, at + 2);
    }
    page
}

/// A leaf with some blocks, at a header of any place.
fn sample_at(head: usize, length: usize) -> Vec<u8> {
    let mut page = vec![0; length];
    leaf(&mut page, head, &[vec![2, 8, 0], vec![0, 2, 1, 7], vec![], vec![2, 9]]);
    page
}

fn sample() -> Vec<u8> {
    sample_at(0, 64)
}

/// The header at every place of a short page, and far off; blocks just below where they may begin.
fn heads(sink: &mut dyn Sink) {
    for head in 0..40 {
        for length in head + 1..60 {
            slice(sink, &sample_at(head, length), head, &[0], 4);
        }
        for below in 0..4 {
            let mut page = full_of_rows(60);
            put(&mut page, head + 1, head + 10 - below);
            link(&mut page, head + 10 - below, 0, 8);
            slice(sink, &page, head, &[0], 1);
        }
    }
    for page in [&sample()[..], &full_of_rows(300), &[], &[2]] {
        let end = page.len() as u64;
        for head in (end.saturating_sub(13)..end + 3).chain([1 << 16, 1 << 32, 1 << 63, LAST_HEAD - 1, LAST_HEAD]) {
            sink.put(Case::new(RECOVER_SLICE, &[head, 0], &[page, &[0]], &lists(1, 1)));
        }
    }
}

fn bases(sink: &mut dyn Sink) {
    let top = 1u64 << 48;
    for base in [0, 1, 1 << 32, top - 1, top, top + 1, 1 << 63, u64::MAX] {
        for rows in 0..=4 {
            sink.put(Case::new(RECOVER_SLICE, &[0, base], &[&sample(), &[0]], &lists(rows, 1)));
        }
    }
}

/// Every set of refusals that can hold at once, but for the size of the slice, which large.rs adds.
pub fn refusals(sink: &mut dyn Sink, bytes: &[u8]) {
    for columns in [0, 1, 2, 126, 127, 510, 511] {
        for bad in [None, Some(0), Some(columns.max(1) - 1)] {
            let mut hints = vec![0; columns];
            if let Some(hint) = bad.and_then(|at: usize| hints.get_mut(at)) {
                *hint = 6;
            }
            for rows in [0, 1] {
                let lists = lists(rows, columns.max(1));
                for base in [0, 1 << 48, (1 << 48) + 1] {
                    sink.put(Case::new(RECOVER_SLICE, &[0, base], &[bytes, &hints], &lists));
                }
                for (size, page) in [(512, 1), (512, 0), (512, 2), (1024, 1), (511, 1), (131_072, 0), (0, 1)] {
                    sink.put(Case::new(RECOVER_PAGE, &[size, page], &[bytes, &hints], &lists));
                }
            }
        }
    }
}

/// Every size of a page, as page 1 and as another; a block that reaches the page's last byte, and one past it.
fn sizes(sink: &mut dyn Sink) {
    for size in SIZES {
        for head in [0, 100] {
            for (room, more) in [(3, 0), (4, 0), (5, 0), (5, 1), (6, 0), (9, 0), (9, 1)] {
                let mut page = vec![0; size];
                let start = size - room;
                page[start..].copy_from_slice(&[0, 0, 0, 0, 2, 8, 2, 8, 2][..room]);
                put(&mut page, head + 1, start);
                link(&mut page, start, 0, room + more);
                slice(sink, &page, head, &[0], 1);
                numbered(sink, &page, head, &[0], 1);
            }
            for below in [7, 8, 9] {
                let mut page = full_of_rows(size);
                put(&mut page, head + 1, head + below);
                link(&mut page, head + below, 0, (size - head - below).min(65_535));
                slice(sink, &page, head, &[0], 1);
                numbered(sink, &page, head, &[0], 1);
            }
        }
    }
}

fn some_payloads(random: &mut Random, hints: &[u8]) -> Vec<Vec<u8>> {
    (0..random.below(6)).map(|_| payload(random, hints)).collect()
}

fn random_slice(sink: &mut dyn Sink, random: &mut Random) {
    let hints = hints(random);
    let payloads = some_payloads(random, &hints);
    let head = if random.once_in(4) { random.below(12) } else { 0 };
    let whole: usize = payloads.iter().map(|p| p.len() + 4).sum();
    let mut page = vec![0; head + 8 + whole + random.below(8)];
    leaf(&mut page, head, &payloads);
    for _ in 0..random.below(3) {
        harm(random, &mut page, head);
    }
    let base = random.any_width() >> 16;
    let [r, c] = lists(random.below(7), hints.len());
    let room = [r + random.below(WORDS_PER_ROW), c + random.below(4 * hints.len())];
    sink.put(Case::new(RECOVER_SLICE, &[head as u64, base], &[&page, &hints], &room));
}

/// A page full of links that lead to each other.
fn random_links(sink: &mut dyn Sink, random: &mut Random) {
    let length = 12 + random.below(60);
    let mut page: Vec<u8> = (0..length).map(|_| random.pick(&[0, 0, 0, 2, 8, 9, 12, 16, 20])).collect();
    put(&mut page, 1, 8 + random.below(8));
    for _ in 0..random.below(9) {
        link(&mut page, 8 + random.below(length), random.below(length + 2), random.below(16));
    }
    slice(sink, &page, 0, &[random.pick(&[0, 4, 5])], 6);
}

/// A page of a database, given both ways; most are of the least size.
fn random_page(sink: &mut dyn Sink, random: &mut Random) {
    let hints = hints(random);
    let head = if random.once_in(2) { 100 } else { 0 };
    let mut page = vec![0; SIZES[random.mostly_below(1, 20, 5)]];
    leaf(&mut page, head, &some_payloads(random, &hints));
    if random.once_in(3) {
        page[head] = random.next() as u8;
    }
    for _ in 0..random.below(3) {
        harm(random, &mut page, head);
    }
    slice(sink, &page, head, &hints, 6);
    numbered(sink, &page, head, &hints, 6);
}

/// Every room from none to one more than is needed, in both lists and in each by itself.
fn rooms(sink: &mut dyn Sink, random: &mut Random) {
    let hints = hints(random);
    let mut page = vec![0; 512];
    leaf(&mut page, 0, &some_payloads(random, &hints));
    let found = rows(&Limits::of_the_rules(), &page, 0, &hints).len();
    let db = [&vec![0; 512], &page[..]].concat();
    let [most_r, most_c] = lists(found + 1, hints.len());
    for room in 0..=found + 1 {
        let [r, c] = lists(room, hints.len());
        for lent in
            [[r, c], [r, most_c], [most_r, c], [r + WORDS_PER_ROW - 1, c + 4 * hints.len() - 1], [r.max(1) - 1, c]]
        {
            sink.put(Case::new(RECOVER_SLICE, &[0, 1 << 20], &[&page, &hints], &lent));
            sink.put(Case::new(RECOVER_PAGE, &[512, 2], &[&db, &hints], &lent));
        }
    }
}
