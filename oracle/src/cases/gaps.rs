//! Pages for the gap's carver: every short gap, chains by its own rule, every size of page, and pages as they are left
//! where rows were deleted. What the calls on free blocks are lent is lent to its calls, too. All go each way of rebuilding.

use super::bytes::{every, width, TELLING};
use super::chains::{self, full_of_rows, numbered, slice};
use super::databases::{harm, link, put, Database, LEAF, SIZES};
use super::records::{damage, header, hints, junk, record};
use super::regions::{lists, with_tail};
use super::{bytes, tables};
use crate::calls::{GAPS, GAP_PAGE, GAP_SLICE, RECOVER, RECOVER_PAGE, RECOVER_SLICE};
use crate::case::Case;
use crate::random::Random;
use crate::rules::gap::{rows, Sought};
use crate::rules::limits::{Limits, EXACT, NO_GUESSES, ONE_BYTE, WORDS_PER_ROW};
use crate::runner::Sink;

pub const WAYS: [u64; 3] = [NO_GUESSES, ONE_BYTE, EXACT];

/// Puts a case of a call that may rebuild headers, which comes without a way to do so, once for each. Without guesses comes first:
/// what is left there is held against what is left in the others.
pub fn each_way(sink: &mut dyn Sink, case: Case) {
    for way in WAYS {
        let numbers = [&[way][..], &case.numbers].concat();
        sink.put(Case { numbers, ..case.clone() });
    }
}

/// Puts cases of the calls on free blocks as cases of the gap's carver, with more room, since it finds more; no others.
pub struct AsGaps<'a>(pub &'a mut dyn Sink);

const MORE: usize = 8;

impl Sink for AsGaps<'_> {
    fn put(&mut self, case: Case) {
        let call = match case.call {
            RECOVER => GAPS,
            RECOVER_PAGE => GAP_PAGE,
            RECOVER_SLICE => GAP_SLICE,
            _ => return,
        };
        let mut case = Case { call, ..case };
        let sheet = case.lists.len() - 2;
        case.lists[sheet..].iter_mut().for_each(|cells| *cells *= MORE);
        each_way(self.0, case);
    }
}

pub fn all(sink: &mut dyn Sink, random: &mut Random, count: usize) {
    chains::short(&mut AsGaps(sink));
    bounds(&mut AsGaps(sink));
    contents(&mut AsGaps(sink));
    three_blocks(&mut AsGaps(sink));
    steps(&mut AsGaps(sink));
    sizes(&mut AsGaps(sink));
    whole_page(&mut AsGaps(sink));
    shares(&mut AsGaps(sink));
    short_zeros(&mut AsGaps(sink));
    pages_of_zeros(&mut AsGaps(sink));
    chains::some(&mut AsGaps(sink), random, count / 4);
    for i in 0..count * 3 / 4 {
        match i % 256 {
            0 => rooms(sink, random),
            1..=24 => random_numbered(&mut AsGaps(sink), random),
            _ => random_page(sink, random),
        }
    }
}

/// All leaves of lent tables.
pub fn walks(sink: &mut dyn Sink, random: &mut Random, count: usize) {
    tables::short(&mut AsGaps(sink));
    leaves_of_every_size(&mut AsGaps(sink));
    tables::some(&mut AsGaps(sink), random, count / 4);
    for _ in 0..count * 3 / 4 {
        random_tables(sink, random);
    }
}

/// The header of a page, but for its type.
struct Head {
    first_block: usize,
    cells: usize,
    content: usize,
}

fn put_head(page: &mut [u8], at: usize, head: &Head) {
    put(page, at + 1, head.first_block);
    put(page, at + 3, head.cells);
    put(page, at + 5, head.content);
}

/// Every count of cells with every start of their content, on a page with rows wherever one looks.
pub fn bounds(sink: &mut dyn Sink) {
    const LENGTH: usize = 26;
    for at in [0, 3] {
        for cells in (0..=11).chain([127, 128, 255, 256, 32_768, 65_535]) {
            for content in (0..=LENGTH + 2).chain([255, 256, 65_535]) {
                for first_block in [0, 8, 12] {
                    let mut page = full_of_rows(LENGTH);
                    put_head(&mut page, at, &Head { first_block, cells, content });
                    slice(sink, &page, at, &[0], 2);
                    page.fill(0);
                    put_head(&mut page, at, &Head { first_block, cells, content });
                    slice(sink, &page, at, &[0], 2);
                }
            }
        }
    }
}

/// A page whose gap holds just these bytes, behind so many cell pointers and before what is no gap.
fn around(gap: &[u8], cells: usize, behind: &[u8]) -> Vec<u8> {
    let start = 8 + 2 * cells;
    // No pointer counts, and so they are rows.
    let mut page = full_of_rows(start);
    put_head(&mut page, 0, &Head { first_block: 0, cells, content: start + gap.len() });
    page.extend(gap);
    page.extend(behind);
    page
}

/// The bytes behind a gap, which no row may reach.
const BEHIND: [u8; 9] = [2, 8, 0, 1, 2, 8, 3, 8, 8];

pub fn contents(sink: &mut dyn Sink) {
    let lent: [&[u8]; 6] = [&[0], &[1], &[2], &[4], &[5], &[0, 5]];
    every(&TELLING, 3, |gap| {
        for hints in lent {
            slice(sink, &around(gap, 0, &BEHIND), 0, hints, 1);
        }
        slice(sink, &around(gap, 1, &[]), 0, &[5], 1);
        slice(sink, &around(&[gap, &[0, 0]].concat(), 2, &BEHIND), 0, &[0], 1);
    });
    for kind in 0..=255 {
        for bodies in 0..=12 {
            for hint in [0, 2, 5] {
                slice(sink, &around(&with_tail(&[kind], bodies, 1), 0, &BEHIND), 0, &[hint], 1);
            }
        }
    }
}

/// Three blocks in every order of their places, each with a good or a bad size.
fn three_blocks(sink: &mut dyn Sink) {
    const PLACES: [usize; 3] = [8, 18, 28];
    const LENGTH: usize = 40;
    for order in 0..27 {
        let place = |i: u32| PLACES[order / 3usize.pow(i) % 3];
        for sizes in 0..216 {
            let size = |i: u32| match sizes / 6usize.pow(i) % 6 {
                5 => LENGTH - place(i) + 1,
                4 => LENGTH - place(i),
                n => [0, 3, 4, 9][n],
            };
            let mut page = full_of_rows(LENGTH);
            put_head(&mut page, 0, &Head { first_block: place(0), cells: 0, content: 0 });
            link(&mut page, place(2), 0, size(2));
            link(&mut page, place(1), place(2), size(1));
            link(&mut page, place(0), place(1), size(0));
            slice(sink, &page, 0, &[0], 6);
        }
    }
}

/// Chains of up to more blocks than are looked at, all with a row, or the first ones with a bad size.
pub fn steps(sink: &mut dyn Sink) {
    const STRIDE: usize = 8;
    for count in [1, 2, 1000, 1022, 1023, 1024, 1025, 1026, 1500] {
        for bad in [1025, 1024, 1023, 1022, 1, 0] {
            let mut page = vec![0; 16_384];
            let place = |i: usize| if i < count { 8 + STRIDE * i } else { 0 };
            put(&mut page, 1, 8);
            for i in 0..count {
                link(&mut page, place(i), place(i + 1), if i < bad { 3 } else { STRIDE });
                page[place(i) + 4..][..4].copy_from_slice(&[2, 1, 2, 8]);
            }
            if bad <= count {
                for rows in [0, 3 * count / MORE + 1] {
                    slice(sink, &page[..8 + STRIDE * count], 0, &[0], rows);
                    numbered(sink, &page, 0, &[0], rows);
                }
            }
        }
    }
    // Links two bytes apart, each a size for the one before.
    let mut page = vec![0; 4096];
    put(&mut page, 1, 8);
    for at in (8..4096).step_by(2) {
        put(&mut page, at, if at % 10 == 0 { at + 6 } else { at + 2 });
    }
    slice(sink, &page, 0, &[0], 4);
}

/// Every size of page, as page 1 and as another: a gap and a block that reach the page's last byte, and one past it.
fn sizes(sink: &mut dyn Sink) {
    for size in SIZES {
        for at in [0, 100] {
            for past in 0..=1 {
                let mut page = vec![0; size];
                let block = size - 12;
                page[block..].copy_from_slice(&[0, 0, 0, 0, 4, 7, 2, 1, 9, 0, 2, 8]);
                link(&mut page, block, 0, 12 + past);
                for content in [0, block, size - 1, size, size + 1, 200, at + 8, at + 9, at + 12] {
                    for cells in [0, 1, 2] {
                        put_head(&mut page, at, &Head { first_block: block, cells, content });
                        slice(sink, &page, at, &[0], 2);
                        numbered(sink, &page, at, &[0], 2);
                    }
                }
            }
        }
    }
}

/// A content start of 0, on slices as long as it means and not: rows at the gap's end and behind it.
pub fn whole_page(sink: &mut dyn Sink) {
    const WHOLE: usize = 65_536;
    for length in [512, WHOLE - 1, WHOLE, WHOLE + 1, WHOLE + 20] {
        for before in 0..6 {
            for content in [0, 1, WHOLE - 1] {
                let mut page = vec![0; length];
                let at = WHOLE.min(length) - before;
                page[at..].iter_mut().zip([2, 8, 1]).for_each(|(cell, byte)| *cell = byte);
                put_head(&mut page, 0, &Head { first_block: 0, cells: 3, content });
                slice(sink, &page, 0, &[0], 1);
                if length.is_power_of_two() {
                    numbered(sink, &page, 0, &[0], 1);
                }
            }
        }
    }
}

/// Gaps of zeros and of zeros but for one byte, any byte at any place; the empty one first. Behind each stand rows that are not in it.
pub fn short_zeros(sink: &mut dyn Sink) {
    const LONGEST: usize = 10;
    let lent: [&[u8]; 4] = [&[0], &[2], &[5, 5], &[4, 0, 5]];
    let mut put = |gap: &[u8]| {
        for hints in lent {
            slice(sink, &around(gap, 1, &BEHIND), 0, hints, 1);
        }
    };
    for length in 0..=LONGEST {
        let mut gap = vec![0; length];
        put(&gap);
        for place in 0..length {
            for byte in 1..=255 {
                gap[place] = byte;
                put(&gap);
            }
            gap[place] = 0;
        }
    }
}

/// Pages of every size that are all gap, of zeros; and those of two sizes with one byte that tells at every place of it.
fn pages_of_zeros(sink: &mut dyn Sink) {
    let all = |size: usize, at: usize| {
        let mut page = vec![0; size];
        page[at] = LEAF;
        put_head(&mut page, at, &Head { first_block: 0, cells: 0, content: size });
        page
    };
    for size in SIZES {
        for at in [0, 100] {
            let page = all(size, at);
            slice(sink, &page, at, &[0], 1);
            numbered(sink, &page, at, &[0], 1);
        }
    }
    for (size, bytes) in [(512, &TELLING[..]), (4096, &[2, 0x80])] {
        let mut page = all(size, 0);
        for place in 8..size {
            for &byte in bytes {
                page[place] = byte;
                slice(sink, &page, 0, &[5], 1);
            }
            page[place] = 0;
        }
    }
}

/// Every share of suited columns, in a gap, in a cell and in a rebuilt row: each has its own confidence and percent.
pub fn shares(sink: &mut dyn Sink) {
    for columns in (1..=126).chain(WIDE) {
        for suited in some_of(columns) {
            let mut hints = vec![4; columns];
            hints[..suited].fill(5);
            let types = vec![8; columns];
            let whole = header(&vec![(8, 1); columns], 1);
            let length = bytes::varint(whole.len() as u64, 2);
            let cell = [&length[..], &[7], &whole, &types].concat();
            let mut page = around(&[&whole[..], &[0, 0]].concat(), 0, &[]);
            let block = page.len();
            put(&mut page, 1, block);
            page.extend([0; 4]);
            page.extend(&cell);
            link(&mut page, block, 0, 4 + cell.len());
            slice(sink, &page, 0, &hints, 1);
        }
    }
}

/// Counts of columns for which a header length takes two bytes, up to the most.
pub const WIDE: [usize; 9] = [127, 128, 129, 200, 255, 256, 257, 509, 510];

/// All numbers from 1 up to a count, or, if a length takes two bytes with it, some of them and the count itself.
pub fn some_of(count: usize) -> impl Iterator<Item = usize> {
    (1..=count).rev().step_by(if count < 127 { 1 } else { 1 + count / 12 })
}

/// Mostly few: a block of a wide table is tried at every byte, with all its columns.
pub fn few_hints(random: &mut Random) -> Vec<u8> {
    if random.once_in(8) {
        return hints(random);
    }
    (0..1 + random.below(5)).map(|_| random.below(6) as u8).collect()
}

/// A cell: its payload's length, its row id and its record.
pub fn cell(random: &mut Random, hints: &[u8]) -> Vec<u8> {
    let record = record(random, hints);
    let more = if random.once_in(8) { random.below(4) } else { 0 };
    let length = (record.len() + more) as u64;
    let id = if random.once_in(4) { random.any_width() } else { random.below(200) as u64 };
    let padded = |random: &mut Random, value: u64| {
        let least = width(value);
        bytes::varint(value, if random.once_in(10) { least + random.below(10 - least) } else { least })
    };
    let mut bytes = padded(random, length);
    bytes.extend(padded(random, id));
    bytes.extend(record);
    bytes.extend(vec![0; more]);
    if random.once_in(8) {
        damage(random, &mut bytes);
    }
    bytes
}

/// Cells put into a leaf from its end, as many as fit. Answers where each begins and ends, the lowest last.
fn fill(random: &mut Random, page: &mut [u8], at: usize, hints: &[u8], most: usize) -> Vec<(usize, usize)> {
    let mut cells = Vec::new();
    let mut content = page.len() - if random.once_in(4) { random.below(4) } else { 0 };
    while cells.len() < most {
        let mut bytes = cell(random, hints);
        bytes.resize(bytes.len().max(4), 0);
        let pointers = at + 8 + 2 * (cells.len() + 1);
        if content < pointers + bytes.len() {
            break;
        }
        let start = content - bytes.len();
        page[start..content].copy_from_slice(&bytes);
        cells.push((start, content));
        content = start;
    }
    cells
}

/// Makes a page a leaf that was lived in: cells were put in, and some deleted again. What begins at the content start goes
/// back to the gap with its bytes; the others become blocks, those that touch each other one.
pub fn lived_in(random: &mut Random, page: &mut [u8], at: usize, hints: &[u8]) {
    page[at] = LEAF;
    let most = random.mostly_below(8, 20, 60);
    let cells = fill(random, page, at, hints, most);
    let mut content = cells.last().map_or(page.len(), |cell| cell.0);
    let chance = 1 + random.below(4);
    let (mut kept, mut blocks): (Vec<usize>, Vec<(usize, usize)>) = (Vec::new(), Vec::new());
    for &(start, end) in cells.iter().rev() {
        let touches = blocks.last().is_some_and(|block| block.1 == start);
        if random.once_in(chance) {
            match blocks.last_mut().filter(|_| touches) {
                Some(block) => block.1 = end,
                None if start == content => content = end,
                None => blocks.push((start, end)),
            }
        } else {
            kept.push(start);
        }
    }
    for (i, start) in kept.iter().rev().enumerate() {
        put(page, at + 8 + 2 * i, *start);
    }
    let first_block = blocks.first().map_or(0, |block| block.0);
    for (i, &(start, end)) in blocks.iter().enumerate() {
        link(page, start, blocks.get(i + 1).map_or(0, |next| next.0), end - start);
    }
    put_head(page, at, &Head { first_block, cells: kept.len(), content });
}

fn some_page(random: &mut Random, hints: &[u8], at: usize, size: usize) -> Vec<u8> {
    let mut page = vec![0; size];
    lived_in(random, &mut page, at, hints);
    for _ in 0..random.mostly_below(2, 4, 6) {
        harm(random, &mut page, at);
    }
    page
}

/// A short page with a few rows, as a slice.
fn random_page(sink: &mut dyn Sink, random: &mut Random) {
    let hints = few_hints(random);
    let at = if random.once_in(4) { random.below(12) } else { 0 };
    let size = at + 8 + random.mostly_below(120, 8, 700);
    let page = some_page(random, &hints, at, size);
    let base = random.any_width() >> 16;
    let rows = if random.once_in(4) { random.below(6) } else { 24 };
    let [r, c] = lists(rows, hints.len());
    let room = [r + random.below(WORDS_PER_ROW), c + random.below(4 * hints.len())];
    each_way(sink, Case::new(GAP_SLICE, &[at as u64, base], &[&page, &hints], &room));
}

/// A page of a database, given both ways; most are of the least size.
fn random_numbered(sink: &mut dyn Sink, random: &mut Random) {
    let hints = few_hints(random);
    let at = if random.once_in(2) { 100 } else { 0 };
    let size = SIZES[random.mostly_below(1, 30, 4)];
    let mut page = some_page(random, &hints, at, size);
    if random.once_in(4) {
        page[at] = random.next() as u8;
    }
    slice(sink, &page, at, &hints, 5);
    numbered(sink, &page, at, &hints, 5);
}

/// Every room from none to one more than is needed, in both lists and in each by itself.
fn rooms(sink: &mut dyn Sink, random: &mut Random) {
    let hints = few_hints(random);
    let page = some_page(random, &hints, 0, 512);
    let found = |rebuilding| rows(&Limits::of_the_rules(), &page, 0, Sought { hints: &hints, rebuilding }).len();
    let found = WAYS.map(found).into_iter().max().unwrap_or(0);
    let db = [&vec![0; 512], &page[..]].concat();
    let [most_r, most_c] = lists(found + 1, hints.len());
    for room in (0..=found + 1).rev().take(12).chain([0, 1]) {
        let [r, c] = lists(room, hints.len());
        for lent in
            [[r, c], [r, most_c], [most_r, c], [r + WORDS_PER_ROW - 1, c + 4 * hints.len() - 1], [r.max(1) - 1, c]]
        {
            each_way(sink, Case::new(GAP_SLICE, &[0, 1 << 20], &[&page, &hints], &lent));
            each_way(sink, Case::new(GAP_PAGE, &[512, 2], &[&db, &hints], &lent));
        }
    }
}

/// Leaves of every size, the first page and another, with a row in the gap, in a cell and behind a made-up length.
pub fn leaves_of_every_size(sink: &mut dyn Sink) {
    for size in SIZES {
        for leaf in 1..=2 {
            let mut db = Database::new(size, 2);
            db.interior(3 - leaf, leaf as u32, &[]);
            let (page, at) = db.page(leaf);
            page[at] = LEAF;
            let block = size - 12;
            page[block..].copy_from_slice(&[0, 0, 0, 12, 4, 7, 2, 1, 9, 0, 2, 8]);
            page[block - 9..block - 4].copy_from_slice(&[2, 1, 5, 0, 0]);
            put_head(page, at, &Head { first_block: block, cells: 1, content: block - 4 });
            for root in 0..=3 {
                tables::put(sink, &db, &[(root, vec![0])], 1, 1);
            }
            tables::put(sink, &db, &[(1, vec![0]), (2, vec![5])], 1, 2);
            db.bytes.pop();
            tables::put(sink, &db, &[(1, vec![0]), (2, vec![5])], 1, 2);
        }
    }
}

/// Tables whose leaves were lived in, each by one of them.
fn random_tables(sink: &mut dyn Sink, random: &mut Random) {
    let tables = tables::random_tables(random);
    let mut db = super::walks::random_database(random);
    for number in 1..=db.pages() {
        let (page, at) = db.page(number);
        if page[at] == LEAF && !tables.is_empty() {
            let table = random.below(tables.len());
            lived_in(random, page, at, &tables[table].1);
            if random.once_in(5) {
                harm(random, page, at);
            }
        }
    }
    if random.once_in(10) {
        let end = db.bytes.len();
        db.bytes.truncate(end - random.below(end.min(500) + 1));
        db.bytes.extend(junk(random));
    }
    tables::random_case(&mut AsGaps(sink), random, &db, &tables);
}
