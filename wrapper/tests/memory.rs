//! Pages on which nearly every byte begins a row: what is asked for stays below the limit, and no page is hidden by another.

use phsarodil::{
    recover_freeblocks, scan_every_page_gap, scan_page_gap, scan_page_gaps, scan_single_page_gap,
    Found, FreeSpace, GapWalk, Hint, PageError, Rebuilding, Refusal, Table, Value, DEFAULT_MEMORY,
    MOST_COLUMNS,
};
use std::alloc::{GlobalAlloc, Layout, System};
use std::sync::atomic::{AtomicUsize, Ordering::SeqCst};
use std::sync::Mutex;

/// Counts the bytes that are held, and the most that were at once.
struct Counting;

static HELD: AtomicUsize = AtomicUsize::new(0);
static MOST: AtomicUsize = AtomicUsize::new(0);

// SAFETY: every call is passed on to the system's allocator as it came.
unsafe impl GlobalAlloc for Counting {
    unsafe fn alloc(&self, layout: Layout) -> *mut u8 {
        let held = HELD.fetch_add(layout.size(), SeqCst) + layout.size();
        MOST.fetch_max(held, SeqCst);
        System.alloc(layout)
    }

    unsafe fn dealloc(&self, pointer: *mut u8, layout: Layout) {
        HELD.fetch_sub(layout.size(), SeqCst);
        System.dealloc(pointer, layout)
    }
}

#[global_allocator]
static COUNTING: Counting = Counting;

/// One measurement at a time: tests run beside each other.
static MEASURING: Mutex<()> = Mutex::new(());

/// What comes of it, and the most bytes that it held at once beyond what was held before.
fn measured<T>(work: impl FnOnce() -> T) -> (T, usize) {
    let before = HELD.load(SeqCst);
    MOST.store(before, SeqCst);
    let done = work();
    (done, MOST.load(SeqCst) - before)
}

const SIZE: usize = 65_536;

/// What there is beside the lists: hints as codes, the walk's flags and leaves, the row that is looked at, and the test's own.
const SLACK: usize = 1 << 16;

/// Seven leaves, each of which is one freed block of zeros; and below the same root, as the last, one with a freed row of so many
/// columns, all 0 but the last: a text.
fn tablet(columns: usize) -> Vec<u8> {
    let mut db = vec![0; 9 * SIZE];
    db[100] = 5;
    db[104] = 7;
    db[108..112].copy_from_slice(&2u32.to_be_bytes());
    for cell in 0..7 {
        let place = 200 + 8 * cell;
        db[112 + 2 * cell..][..2].copy_from_slice(&(place as u16).to_be_bytes());
        db[place..][..4].copy_from_slice(&(3 + cell as u32).to_be_bytes());
    }
    for (i, leaf) in db[SIZE..].chunks_exact_mut(SIZE).enumerate() {
        leaf[0] = 13;
        leaf[2] = 8;
        let size = SIZE - 8;
        leaf[10..12].copy_from_slice(&(size as u16).to_be_bytes());
        if i == 0 {
            let size = 4 + columns + 5;
            leaf[10..12].copy_from_slice(&(size as u16).to_be_bytes());
            leaf[12..][..columns - 1].fill(8);
            leaf[12 + columns - 1] = 23;
            leaf[12 + columns..][..5].copy_from_slice(b"hipik");
        }
    }
    db
}

fn table(columns: usize) -> [Table; 1] {
    [Table::new("readings", 1, vec![Hint::Any; columns])]
}

fn guesses(walk: GapWalk) -> FreeSpace {
    walk.rebuilding(Rebuilding::Exact).rows().unwrap()
}

/// How many rows came of each page, or what was said of it.
fn by_page<'a>(
    rows: impl Iterator<Item = Result<Found<'a>, PageError>>,
) -> Vec<(u64, Result<usize, Refusal>)> {
    let mut pages: Vec<(u64, Result<usize, Refusal>)> = Vec::new();
    for row in rows {
        match (row, pages.last_mut()) {
            (Ok(found), Some((page, Ok(count)))) if *page == found.page => *count += 1,
            (Ok(found), _) => pages.push((found.page, Ok(1))),
            (Err(error), _) => pages.push((error.page, Err(error.refusal))),
        }
    }
    pages
}

#[test]
fn seven_zeroed_blocks_of_510_columns() {
    let _one = MEASURING.lock();
    let (db, tables) = (tablet(MOST_COLUMNS), table(MOST_COLUMNS));
    for limit in [1 << 20, DEFAULT_MEMORY] {
        let rows = guesses(scan_page_gaps(&db, SIZE, &tables));
        let (pages, most) = measured(|| by_page(rows.memory(limit)));
        // The walk comes to the leaves of the cells from the last to the first, and to the right child behind them.
        let mut expected: Vec<_> = (3..=9)
            .rev()
            .map(|page| (page, Err(Refusal::NoRoom)))
            .collect();
        expected.push((2, Ok(1)));
        assert_eq!(pages, expected);
        assert!(most <= limit + SLACK, "{most} bytes at a limit of {limit}");
    }
}

#[test]
fn the_row_behind_seven_such_pages_is_whole() {
    let _one = MEASURING.lock();
    let (db, tables) = (tablet(MOST_COLUMNS), table(MOST_COLUMNS));
    let rows = guesses(scan_page_gaps(&db, SIZE, &tables));
    let found: Vec<_> = rows.filter_map(Result::ok).collect();
    let [found] = &found[..] else {
        panic!("{found:?}")
    };
    let values = found.record.values().unwrap();
    assert_eq!(values.len(), MOST_COLUMNS);
    assert!(values[..MOST_COLUMNS - 1]
        .iter()
        .all(|value| *value == Value::Integer(0)));
    assert_eq!(values[MOST_COLUMNS - 1], Value::Text("hipik"));
    assert_eq!(found.record.table().unwrap().name, "readings");
}

#[test]
fn every_byte_a_row_of_25_columns_within_the_default() {
    let _one = MEASURING.lock();
    let (db, hints) = (tablet(25), [Hint::Any; 25]);
    let rows = |number| {
        let page = scan_page_gap(&db, SIZE, number, &hints).rebuilding(Rebuilding::Exact);
        page.rows().map(|rows| rows.len())
    };
    assert_eq!(rows(2), Ok(1));
    for number in 3..=9 {
        let (rows, most) = measured(|| rows(number));
        // Of a block's 65,524 bytes behind the link, all but the last 24 begin a row.
        assert_eq!(rows, Ok(65_500));
        assert!(most <= DEFAULT_MEMORY + SLACK, "{most} bytes");
    }
}

#[test]
fn lists_are_used_again_for_the_next_page() {
    let _one = MEASURING.lock();
    let db = tablet(2);
    let part = &db[..4 * SIZE];
    let rows = guesses(scan_every_page_gap(part, SIZE, &[Hint::Any; 2]));
    let (pages, most) = measured(|| by_page(rows));
    // On page 1 two cell pointers read as a row.
    let expected = [(1, Ok(1)), (2, Ok(1)), (3, Ok(65_523)), (4, Ok(65_523))];
    assert_eq!(pages, expected);
    assert!(most <= DEFAULT_MEMORY + SLACK, "{most} bytes");
}

#[test]
fn a_limit_is_the_bytes_of_the_lists() {
    let _one = MEASURING.lock();
    let db = tablet(5);
    let page = &db[2 * SIZE..3 * SIZE];
    let rows = |memory| {
        let page = scan_single_page_gap(page, 0, 0, &[Hint::Any; 5]).rebuilding(Rebuilding::Exact);
        page.memory(memory).rows().map(|rows| rows.len())
    };
    for limit in [0, 1 << 10, 1 << 20, 13 << 20] {
        let (refused, most) = measured(|| rows(limit));
        assert_eq!(refused, Err(Refusal::NoRoom));
        assert!(most <= limit + SLACK, "{most} bytes at a limit of {limit}");
    }
    assert_eq!(rows(16 << 20), Ok(65_520));
}

#[test]
fn no_limit_is_too_large() {
    let _one = MEASURING.lock();
    let (db, tables) = (tablet(2), table(2));
    let rows = recover_freeblocks(&db, SIZE, &tables).unwrap();
    assert!(rows.memory(usize::MAX).all(|row| row.is_ok()));
}
