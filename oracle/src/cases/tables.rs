//! Rows out of all leaves of lent tables: widths, counts, lists that do not belong together, rooms, and random ones.

use super::databases::{harm, payload, Database, SIZES};
use super::numbers::{far, BAD_SIZES};
use super::records::most_columns;
use super::walks::{needs, random_database};
use crate::calls::{self, RECOVER};
use crate::case::Case;
use crate::random::Random;
use crate::rules::limits::{Limits, WORDS_PER_ENTRY, WORDS_PER_ROW};
use crate::runner::Sink;

pub fn all(sink: &mut dyn Sink, random: &mut Random, count: usize) {
    short(sink);
    sizes(sink);
    some(sink, random, count);
}

/// Those on short pages.
pub fn short(sink: &mut dyn Sink) {
    bench(sink);
    widths(sink);
    counts(sink);
    unlike(sink);
    codes(sink);
    many(sink);
    refusals(sink, &sample());
    roots(sink);
}

pub fn some(sink: &mut dyn Sink, random: &mut Random, count: usize) {
    for i in 0..count {
        let tables = random_tables(random);
        let db = random_rows(random, &tables);
        if i % 20 == 0 {
            rooms(sink, &db, &tables);
        } else {
            random_case(sink, random, &db, &tables);
        }
    }
}

/// A table: its root and its hints.
pub type Table = (u64, Vec<u8>);

/// Lists for a walk over the database, and for so many rows of the widest table.
fn lists(db: &Database, tables: &[Table], stack: usize, rows: usize) -> [usize; 4] {
    let width = tables.iter().map(|t| t.1.len()).max().unwrap_or(0);
    [db.pages(), stack, WORDS_PER_ROW * rows, WORDS_PER_ENTRY * width * rows]
}

fn case(db: &Database, tables: &[Table], lists: [usize; 4]) -> Case {
    let hints: Vec<u8> = tables.iter().flat_map(|t| t.1.clone()).collect();
    let roots: Vec<u64> = tables.iter().map(|t| t.0).collect();
    let counts: Vec<u64> = tables.iter().map(|t| t.1.len() as u64).collect();
    Case::new(RECOVER, &[db.size as u64], &[&db.bytes, &hints], &lists).with_words(&[&roots, &counts])
}

pub fn put(sink: &mut dyn Sink, db: &Database, tables: &[Table], stack: usize, rows: usize) {
    sink.put(case(db, tables, lists(db, tables, stack, rows)));
}

/// Page 1 leads to two leaves; their blocks have rows for one, two and three columns.
fn sample() -> Database {
    let mut db = Database::new(512, 3);
    db.interior(1, 3, &[2]);
    db.leaf(2, &[vec![2, 8], vec![0, 3, 1, 13, 7], vec![4, 8, 9, 0]]);
    db.leaf(3, &[vec![4, 0, 0, 1, 5], vec![2, 9], vec![3, 8, 8]]);
    db
}

fn hints(count: usize) -> Vec<u8> {
    vec![0; count]
}

/// Each table by itself and with the others, in every order, twice, and none at all.
fn bench(sink: &mut dyn Sink) {
    let db = sample();
    let some: [Table; 5] = [(1, hints(1)), (2, hints(2)), (1, hints(3)), (3, vec![5]), (0, hints(4))];
    put(sink, &db, &[], 0, 0);
    for a in &some {
        put(sink, &db, std::slice::from_ref(a), 2, 4);
        for b in &some {
            for stack in 0..=3 {
                put(sink, &db, &[a.clone(), b.clone()], stack, 5);
            }
            for c in &some {
                put(sink, &db, &[a.clone(), b.clone(), c.clone()], 2, 9);
            }
        }
    }
    for flags in 0..=5 {
        for stack in 0..=1 {
            sink.put(case(&db, &[], [flags, stack, 3, 3]));
        }
    }
}

/// Rows of a narrow table beside a wide one, which may have none: all groups are as wide as the wide one.
fn widths(sink: &mut dyn Sink) {
    let db = sample();
    for wide in [1, 2, 3, 4, 20, 125, 126, 127, 510] {
        for root in 0..=3 {
            let tables = [(1, hints(1)), (root, hints(wide)), (1, hints(3))];
            for rows in 0..=6 {
                put(sink, &db, &tables, 2, rows);
            }
            let [flags, stack, rows, entries] = lists(&db, &tables, 2, 3);
            for lent in [[rows, entries - 1], [rows, 4 * 3 * 3], [rows - 1, entries], [rows, entries + 3]] {
                sink.put(case(&db, &tables, [flags, stack, lent[0], lent[1]]));
            }
        }
    }
}

/// A case with its counts, roots and hints as they are given.
fn raw(sink: &mut dyn Sink, db: &Database, roots: &[u64], counts: &[u64], hints: &[u8]) {
    for lists in [[0, 0, 0, 0], [db.pages(), 4, 10 * WORDS_PER_ROW, 4000]] {
        let case = Case::new(RECOVER, &[db.size as u64], &[&db.bytes, hints], &lists);
        sink.put(case.with_words(&[roots, counts]));
    }
}

fn counts(sink: &mut dyn Sink) {
    let db = sample();
    let wide = [125, 126, 127, 128, 255, 256, 257, 509, 510, 511, 512];
    for count in [0, 1, 2, 1 << 32, (1 << 32) + 1, 1 << 63, u64::MAX].into_iter().chain(wide) {
        let held = hints((count as usize).min(600) + 1);
        for (roots, counts) in [(&[1][..], &[count][..]), (&[1, 1], &[1, count]), (&[1, 1], &[count, 1])] {
            for length in 0..=held.len() {
                if length < 4 || length + 2 > held.len() {
                    raw(sink, &db, roots, counts, &held[..length]);
                }
            }
        }
    }
    // Sums that come out right where a number is cut off.
    raw(sink, &db, &[1, 1], &[u64::MAX, 2], &[0]);
    raw(sink, &db, &[1, 1], &[1 << 63, 1 << 63], &[]);
}

/// Lists of unlike lengths, with counts that are good and one that is not.
fn unlike(sink: &mut dyn Sink) {
    let db = sample();
    for roots in 0..=3 {
        for counts in 0..=3 {
            for bad in 0..=counts {
                for off in 0..=2 {
                    let mut lent = vec![1; counts];
                    lent.get_mut(bad).into_iter().for_each(|c| *c = 0);
                    let sum = lent.iter().sum::<u64>() as usize;
                    raw(sink, &db, &vec![1; roots], &lent, &hints((sum + off).saturating_sub(1)));
                }
            }
        }
    }
}

/// A code above 5 in each place, of tables with rows and without.
fn codes(sink: &mut dyn Sink) {
    let db = sample();
    for at in 0..6 {
        for code in [4, 5, 6, 7, 255] {
            let mut hints = hints(6);
            hints[at] = code;
            raw(sink, &db, &[1, 0, 9], &[1, 2, 3], &hints);
        }
    }
}

/// As many tables as there may be, and one more.
fn many(sink: &mut dyn Sink) {
    let db = sample();
    for tables in [1023, 1024, 1025, 1026, 2048] {
        let mut lent: Vec<Table> = vec![(0, hints(1)); tables];
        put(sink, &db, &lent, 2, 2);
        lent[tables - 1] = (1, hints(2));
        lent[tables / 2] = (2, hints(1));
        for rows in 0..=4 {
            put(sink, &db, &lent, 2, rows);
        }
        put(sink, &db, &lent, 1, 4);
        lent[tables / 2].1 = hints(0);
        put(sink, &db, &lent, 2, 4);
        lent[tables / 2].1 = vec![6];
        put(sink, &db, &lent, 2, 4);
    }
}

/// Every set of refusals that can hold at once, but for the size of the database, which large.rs adds.
pub fn refusals(sink: &mut dyn Sink, db: &Database) {
    for size in [db.size as u64, 0, 511] {
        for count in [0, 1, 127, 511] {
            for code in [0, 6] {
                for tables in [1, 2, 1025] {
                    for flags in [0, db.pages()] {
                        for stack in [0, 2] {
                            let hints = vec![code; (count * tables as u64).min(5000) as usize];
                            let lists = [flags, stack, 0, 0];
                            let case = Case::new(RECOVER, &[size], &[&db.bytes, &hints], &lists);
                            sink.put(case.with_words(&[&vec![1; tables], &vec![count; tables]]));
                        }
                    }
                }
            }
        }
    }
}

fn sizes(sink: &mut dyn Sink) {
    for size in SIZES {
        for leaf in 1..=2 {
            let mut db = Database::new(size, 2);
            db.interior(3 - leaf, leaf as u32, &[]);
            // The last block reaches as far as the page does.
            let head = db.page(leaf).1;
            let rest = (size - head - 8 - 2 * 6 - 4).min(65_531);
            let last = [2, 9].into_iter().cycle().take(rest).collect();
            db.leaf(leaf, &[vec![2, 8], vec![2, 1], last]);
            for root in 0..=3 {
                put(sink, &db, &[(root, hints(1))], 1, 3);
            }
            db.bytes.pop();
            put(sink, &db, &[(1, hints(1)), (2, vec![5])], 1, 3);
        }
    }
    for size in BAD_SIZES {
        let lent = Case::new(RECOVER, &[size], &[&sample().bytes, &[0]], &[4096, 4, 32, 16]);
        sink.put(lent.with_words(&[&[1], &[1]]));
    }
}

fn roots(sink: &mut dyn Sink) {
    let db = sample();
    for root in far(512) {
        for stack in 0..=2 {
            put(sink, &db, &[(root, hints(1)), (2, hints(1)), (root, hints(2))], stack, 3);
        }
    }
}

pub fn random_tables(random: &mut Random) -> Vec<Table> {
    let tables = random.mostly_below(4, 20, 8);
    let table = |random: &mut Random| {
        let most = most_columns(random);
        let columns = 1 + random.mostly_below(3, 60, most);
        let root = if random.once_in(20) { random.any_width() } else { random.below(6) as u64 };
        (root, (0..columns).map(|_| random.below(6) as u8).collect())
    };
    (0..tables).map(|_| table(random)).collect()
}

/// A database of any shape whose leaves hold rows of the tables.
fn random_rows(random: &mut Random, tables: &[Table]) -> Database {
    let mut db = random_database(random);
    for number in 1..=db.pages() {
        let (page, head) = db.page(number);
        if page[head] != super::databases::LEAF || tables.is_empty() {
            continue;
        }
        let payloads: Vec<Vec<u8>> = (0..random.below(4))
            .map(|_| {
                let table = random.below(tables.len());
                payload(random, &tables[table].1)
            })
            .collect();
        super::databases::leaf(page, head, &payloads);
        if random.once_in(5) {
            harm(random, page, head);
        }
    }
    db
}

pub fn random_case(sink: &mut dyn Sink, random: &mut Random, db: &Database, tables: &[Table]) {
    let enough = !random.once_in(4);
    let stack = if enough { 60 } else { random.below(12) };
    let rows = if enough { 12 } else { random.below(6) };
    let [flags, stack, rows, entries] = lists(db, tables, stack, rows);
    let flags = if random.once_in(40) { random.below(flags + 1) } else { flags + random.below(3) };
    sink.put(case(db, tables, [flags, stack, rows + random.below(WORDS_PER_ROW), entries + random.below(4)]));
}

/// Every room up to one row more than is needed, with every stack from one page less than is needed.
fn rooms(sink: &mut dyn Sink, db: &Database, tables: &[Table]) {
    let limits = Limits::of_the_rules();
    let most = tables.iter().map(|t| needs(db, t.0).1).max().unwrap_or(0);
    let whole = case(db, tables, lists(db, tables, most, 99));
    let rows = (calls::of(&whole).answer)(&limits, &whole).out[0] as usize;
    for room in 0..=rows + 1 {
        for stack in [most.saturating_sub(1), most, most + 1] {
            put(sink, db, tables, stack, room);
        }
    }
    let [flags, stack, r, c] = lists(db, tables, most, rows);
    for lent in [[r.max(1) - 1, c], [r, c.max(1) - 1], [r + WORDS_PER_ROW - 1, c], [r, c + 3]] {
        sink.put(case(db, tables, [flags, stack, lent[0], lent[1]]));
    }
    for flags in [0, flags.max(1) - 1, flags + 1, flags + 20] {
        sink.put(case(db, tables, [flags, stack, r, c]));
    }
}
