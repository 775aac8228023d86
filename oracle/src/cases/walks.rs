//! Leaf walks: every tree and every tangle of three pages, roots and cells of all kinds, and each stack and room.

use super::databases::{put, Database, INTERIOR, LEAF, SIZES};
use super::numbers::{far, BAD_SIZES};
use crate::calls::LEAVES;
use crate::case::Case;
use crate::random::Random;
use crate::rules::limits::Limits;
use crate::rules::walk::walk;
use crate::runner::Sink;

/// More than the stack of any walk here needs, but for the largest.
const AMPLE: usize = 40;

pub fn all(sink: &mut dyn Sink, random: &mut Random, count: usize) {
    tangles(sink);
    one_page(sink);
    roots(sink);
    cells(sink);
    complete(sink);
    lengths(sink);
    refusals(sink);
    for _ in 0..count / 20 {
        rooms(sink, &random_database(random), 1 + random.below(4) as u64);
    }
    for _ in 0..count / 2 {
        let db = random_database(random);
        let lent = [db.pages() + random.below(3), random.below(AMPLE), random.below(8)];
        put_case(sink, &db, random.below(db.pages() + 2) as u64, lent);
    }
}

fn put_case(sink: &mut dyn Sink, db: &Database, root: u64, lists: [usize; 3]) {
    sink.put(Case::new(LEAVES, &[db.size as u64, root], &[&db.bytes], &lists));
}

fn ample(sink: &mut dyn Sink, db: &Database, root: u64) {
    put_case(sink, db, root, [db.pages(), AMPLE, db.pages()]);
}

/// The leaves of a walk without bounds, and how many pages its stack holds at most.
pub fn needs(db: &Database, root: u64) -> (usize, usize) {
    let mut leaves = 0;
    let (_, most) = walk(&Limits::of_the_rules(), &db.bytes, db.size as u64, root, usize::MAX, |_, _| {
        leaves += 1;
        true
    });
    (leaves, most)
}

/// Stacks of none, one, one less than is needed, just enough and more; the same for leaves and flags.
fn rooms(sink: &mut dyn Sink, db: &Database, root: u64) {
    let (leaves, most) = needs(db, root);
    let flags = db.pages();
    for stack in [0, 1, most.saturating_sub(1), most, most + 1] {
        for room in [0, leaves.saturating_sub(1), leaves, leaves + 1] {
            put_case(sink, db, root, [flags, stack, room]);
        }
    }
    for lent in [0, flags.saturating_sub(1), flags + 1, flags + 9] {
        for stack in [0, most] {
            put_case(sink, db, root, [lent, stack, leaves]);
        }
    }
}

/// What each of three pages can be: a leaf, nothing, or an interior page with a right child and a cell or none.
const PAGES: u32 = 3;
const CHILDREN: u32 = PAGES + 2;
const CHOICES: u32 = 2 + CHILDREN * (CHILDREN + 1);

fn choose(db: &mut Database, number: usize, choice: u32) {
    match choice {
        0 => db.leaf(number, &[]),
        1 => {}
        _ => {
            let (right, cell) = ((choice - 2) / (CHILDREN + 1), (choice - 2) % (CHILDREN + 1));
            let cells: Vec<u32> = cell.checked_sub(1).into_iter().collect();
            db.interior(number, right, &cells);
        }
    }
}

fn tangles(sink: &mut dyn Sink) {
    for tangle in 0..CHOICES.pow(PAGES) {
        let mut db = Database::new(512, PAGES as usize);
        for number in 0..PAGES {
            choose(&mut db, number as usize + 1, tangle / CHOICES.pow(number) % CHOICES);
        }
        ample(sink, &db, 1);
        let root = u64::from(1 + tangle % PAGES);
        let (leaves, most) = needs(&db, root);
        put_case(sink, &db, root, [3, most - 1, leaves]);
        put_case(sink, &db, root, [3, most, leaves.saturating_sub(1)]);
    }
}

/// Every type of page 1 and of page 2, in every size of page.
fn one_page(sink: &mut dyn Sink) {
    for size in SIZES {
        for number in 1..=2 {
            for kind in 0..=255 {
                let mut db = Database::new(size, 2);
                if size > 1024 && ![0, 2, INTERIOR, 10, LEAF, 255].contains(&kind) {
                    continue;
                }
                db.interior(number, 1, &[2, 1]);
                let (page, head) = db.page(number);
                page[head] = kind;
                db.leaf(3 - number, &[]);
                ample(sink, &db, number as u64);
            }
        }
        // Where page 1's header does not stand.
        let mut db = Database::new(size, 1);
        db.bytes[0] = LEAF;
        ample(sink, &db, 1);
    }
}

fn roots(sink: &mut dyn Sink) {
    for size in SIZES {
        for pages in [0, 1, 3] {
            let mut db = Database::new(size, pages);
            for number in 1..=pages {
                db.leaf(number, &[]);
            }
            for root in (0..=pages as u64 + 2).chain(far(size)) {
                for stack in 0..=1 {
                    put_case(sink, &db, root, [pages, stack, pages]);
                }
            }
        }
    }
}

/// Counts, pointers and cells at the page's ends and behind them.
fn cells(sink: &mut dyn Sink) {
    for size in [512, 1024, 65_536] {
        for number in 1..=2 {
            let mut whole = Database::new(size, 6);
            (1..=6).for_each(|n| whole.leaf(n, &[]));
            whole.interior(number, 6, &[3, 4, 5]);
            let head = whole.page(number).1;
            let fit = (size - head - 12) / 2;
            for count in [0, 1, 2, 3, 4, fit - 1, fit, fit + 1, 65_535] {
                let mut db = whole.clone();
                put(db.page(number).0, head + 3, count);
                put_case(sink, &db, number as u64, [6, size, 6]);
            }
            for cell in (0..16).chain(head..head + 24).chain(size - 12..size + 1).chain([65_535]) {
                let mut db = whole.clone();
                put(db.page(number).0, head + 14, cell);
                put_case(sink, &db, number as u64, [6, size, 6]);
            }
        }
    }
}

/// Every interior page points at every other, itself and leaves, in some order and several times.
fn complete(sink: &mut dyn Sink) {
    for interior in 1..=9 {
        for leaves in 0..=2 {
            for turn in 0..3 {
                let pages = interior + leaves;
                let mut db = Database::new(512, pages);
                for number in 1..=interior {
                    let mut children: Vec<u32> = (0..=pages as u32 + 1).collect();
                    children.rotate_left(number * turn % pages);
                    children.extend_from_within(..turn);
                    db.interior(number, turn as u32, &children);
                }
                (interior + 1..=pages).for_each(|n| db.leaf(n, &[]));
                rooms(sink, &db, 1);
                rooms(sink, &db, interior as u64);
            }
        }
    }
}

/// A last page that is not whole, and databases that are hardly there.
fn lengths(sink: &mut dyn Sink) {
    for size in [512, 4096] {
        for length in [0, 1, 99, 100, 101, size - 1, size, size + 1, 2 * size - 1, 2 * size, 2 * size + 511] {
            let mut db = Database::new(size, 3);
            db.interior(1, 2, &[3, 2, 0]);
            (2..=3).for_each(|n| db.leaf(n, &[]));
            db.bytes.truncate(length);
            for root in 0..=3 {
                rooms(sink, &db, root);
            }
        }
    }
}

/// Sizes that no page has, with what is refused behind them.
fn refusals(sink: &mut dyn Sink) {
    for size in BAD_SIZES {
        for lists in [[0, 0, 0], [0, 3, 3], [4096, 3, 3]] {
            sink.put(Case::new(LEAVES, &[size, 1], &[&[LEAF; 2048]], &lists));
        }
    }
}

/// A number that leads to a page, as a rule.
fn child(random: &mut Random, pages: usize) -> u32 {
    if random.once_in(12) {
        random.any_width() as u32
    } else {
        random.below(pages + 2) as u32
    }
}

/// Some pages of all kinds; each interior one leads anywhere, mostly onwards.
pub fn random_database(random: &mut Random) -> Database {
    let pages = 1 + random.mostly_below(6, 10, 30);
    let mut db = Database::new(if random.once_in(12) { 1024 } else { 512 }, pages);
    for number in 1..=pages {
        match random.below(8) {
            0 => {}
            1..=3 => db.leaf(number, &[]),
            _ => {
                let children: Vec<u32> = (0..random.below(5)).map(|_| child(random, pages)).collect();
                db.interior(number, child(random, pages), &children);
            }
        }
        if random.once_in(6) {
            let (page, head) = db.page(number);
            put(page, head + 3 + random.below(16), random.below(600));
        }
    }
    let cut = if random.once_in(10) { random.below(db.size) } else { 0 };
    db.bytes.truncate(pages * db.size - cut);
    db
}
