//! What is measured: for each, its name, which is the call, the input and the size, and how the work is made.

use crate::calls::*;
use crate::case::Case;
use crate::inputs::{self, bytes, hints, Kind, HINTS, KINDS, READING_HINTS, READING_TYPES};
use crate::pages::{self, database, ROOT, TABLE_HINTS};
use crate::rows;
use crate::rules::limits::{EXACT, ONE_BYTE, WORDS_PER_ENTRY, WORDS_PER_ROW};
use crate::work::Work;

type Make = Box<dyn Fn() -> Result<Work, String>>;

pub struct Measure {
    pub name: String,
    make: Make,
}

impl Measure {
    pub fn work(&self) -> Result<Work, String> {
        (self.make)()
    }
}

const SMALL: (&str, usize) = ("64K", 1 << 16);
const MIDDLE: (&str, usize) = ("1M", 1 << 20);
const SIZES: [(&str, usize); 4] = [SMALL, MIDDLE, ("4M", 1 << 22), ("16M", 1 << 24)];
const PAGE_SIZES: [usize; 8] = [512, 1024, 2048, 4096, 8192, 16_384, 32_768, 65_536];
/// How often a call is made that looks at a few bytes only.
const TIMES: u64 = 65_536;
const BLOCKS: u64 = 4096;
const MOST_COLUMNS: usize = 510;

pub fn all() -> Vec<Measure> {
    let mut all = Vec::new();
    scans(&mut all);
    learned(&mut all);
    modes(&mut all);
    blocks(&mut all);
    single_pages(&mut all);
    databases(&mut all);
    searches(&mut all);
    statements(&mut all);
    values(&mut all);
    all
}

fn add(all: &mut Vec<Measure>, call: u8, input: String, make: impl Fn() -> Work + 'static) {
    add_if(all, call, input, move || Ok(make()));
}

fn add_if(all: &mut Vec<Measure>, call: u8, input: String, make: impl Fn() -> Result<Work, String> + 'static) {
    let name = format!("{}/{input}", CALLS[call as usize - 1].name).replace(' ', "-");
    all.push(Measure { name, make: Box::new(make) });
}

/// Lists for so many rows.
fn room(rows: usize, width: usize) -> [usize; 2] {
    [WORDS_PER_ROW * rows, WORDS_PER_ENTRY * width * rows]
}

/// Room for as many rows as a region may have: none is shorter than a few bytes, and random ones are rare.
fn region(call: u8, numbers: &[u64], bytes: &[u8], hints: &[u8]) -> Case {
    Case::new(call, numbers, &[bytes, hints], &room(bytes.len() / 8, hints.len()))
}

fn scans(all: &mut Vec<Measure>) {
    for (size, length) in SIZES {
        for (name, kind) in KINDS {
            add(all, SCAN, format!("{name}/{size}"), move || {
                Work::once(region(SCAN, &[0, 0], &bytes(kind, length), hints(kind)))
            });
        }
    }
    for name in ["text", "random", "readings"] {
        let kind = kind(name);
        add(all, ATTEMPT, format!("{name}/64K"), move || {
            let bytes = bytes(kind, SMALL.1);
            let case = Case::new(ATTEMPT, &[0, 0], &[&bytes, hints(kind)], &room(1, hints(kind).len()));
            Work { case, values: 0..SMALL.1 as u64 }
        });
    }
}

fn kind(name: &str) -> Kind {
    KINDS.iter().find(|k| k.0 == name).map_or(Kind::Zeros, |k| k.1)
}

/// Integer, real, integer, and two notes.
const TYPES: [u64; 5] = [2, 7, 1, 53, 33];

fn learned(all: &mut Vec<Measure>) {
    for (size, length) in [SMALL, MIDDLE] {
        for name in ["readings", "text", "blanks", "low", "random", "high", "zeros"] {
            let kind = kind(name);
            add(all, UNALLOC, format!("{name}/{size}"), move || {
                let types = if name == "readings" { READING_TYPES.map(u64::from).to_vec() } else { TYPES.to_vec() };
                // A row may have no more than a header length and a type.
                let lists = room(length / 2, types.len());
                Work::once(Case::new(UNALLOC, &[0], &[&bytes(kind, length)], &lists).with_words(&[&types]))
            });
        }
    }
    let work = |width: usize, entries: Vec<u64>| {
        let case = Case::new(LEARN, &[width as u64], &[&rows::bytes()], &[width]);
        Work::once(case.with_words(&[&entries]))
    };
    for width in [5, 126, MOST_COLUMNS] {
        add(all, LEARN, format!("one type/1024 rows of {width}"), move || work(width, rows::one_type(width)));
        add(all, LEARN, format!("two types/1024 rows of {width}"), move || work(width, rows::two_types(width)));
        add(all, LEARN, format!("1023 types/1024 rows of {width}"), move || work(width, rows::many_types(width)));
    }
    for (name, kind) in INTEGERS {
        add(all, LEARN, format!("{name}/1024 rows of 5"), move || {
            work(5, rows::numbers(5, kind, LENGTHS[kind as usize]))
        });
    }
}

fn modes(all: &mut Vec<Measure>) {
    let width = READING_TYPES.len();
    for (size, length) in [SMALL, MIDDLE] {
        add(all, MODES, format!("packed rows/{size}"), move || {
            let bytes = bytes(Kind::Readings, length);
            Work::once(Case::new(MODES, &[0, width as u64], &[&bytes], &room(length / 8, width)))
        });
    }
    // A first byte of 0 is no header length, so the other two modes are tried, with one base after the other.
    add(all, MODES, "no header length/one row".into(), move || {
        let block = [&[0][..], &READING_TYPES[1..], &inputs::bodies()].concat();
        let case = Case::new(MODES, &[0, width as u64], &[&block], &room(2, width));
        Work { case, values: 0..BLOCKS }
    });
}

/// In blocks any byte may begin a row.
fn page(call: u8, numbers: &[u64], bytes: &[u8], hints: &[u8]) -> Work {
    Work::once(Case::new(call, numbers, &[bytes, hints], &room(2 * bytes.len(), hints.len())))
}

const FILLED: [&str; 4] = ["text", "random", "zeros", "low"];

/// The calls that rebuild headers, by their code and what stands before an input's name: the Rust has the first way alone.
const WAYS: [(&str, u64); 2] = [("", ONE_BYTE), ("exact ", EXACT)];

fn blocks(all: &mut Vec<Measure>) {
    for (exact, way) in WAYS {
        for name in FILLED {
            let kind = kind(name);
            let input = format!("{exact}{name}/64K");
            add(all, BLOCK, input, move || page(BLOCK, &[way, 0], &pages::payload(kind), &HINTS));
        }
        let input = format!("{exact}packed cells/64K");
        add(all, BLOCK, input, move || page(BLOCK, &[way, 0], &pages::packed_cells(), &READING_HINTS));
    }
    // As many header bytes are read at each start as may be, and no row is found.
    add(all, BLOCK, "exact high of 510 columns/64K".into(), || {
        let hints = [0; MOST_COLUMNS];
        let lists = room(1, hints.len());
        Work::once(Case::new(BLOCK, &[EXACT, 0], &[&pages::payload(Kind::High), &hints], &lists))
    });
}

/// One byte for each type, the header at 0, and no base.
const GAP_NUMBERS: [u64; 3] = [ONE_BYTE, 0, 0];

fn single_pages(all: &mut Vec<Measure>) {
    let ways = WAYS.map(|(exact, way)| (GAP_SLICE, exact, vec![way, 0, 0]));
    for (call, exact, numbers) in [(RECOVER_SLICE, "", vec![0, 0])].into_iter().chain(ways) {
        for name in FILLED {
            let (kind, numbers) = (kind(name), numbers.clone());
            let input = format!("{exact}one block of {name}/64K");
            add(all, call, input, move || page(call, &numbers, &pages::one_block(kind), &HINTS));
        }
        for (size, length) in [("4K", 4096), SMALL] {
            let (input, numbers) = (format!("{exact}small blocks/{size}"), numbers.clone());
            add(all, call, input, move || page(call, &numbers, &pages::small_blocks(length), &READING_HINTS));
        }
    }
    let gaps: [(&str, fn(Kind) -> Vec<u8>); 2] = [("gap of", pages::gap), ("gap of zeros and", pages::half_gap)];
    for (gap, make) in gaps {
        for name in ["text", "random"] {
            let kind = kind(name);
            add(all, GAP_SLICE, format!("{gap} {name}/64K"), move || {
                page(GAP_SLICE, &GAP_NUMBERS, &make(kind), &HINTS)
            });
        }
    }
    let zeros = || page(GAP_SLICE, &GAP_NUMBERS, &pages::gap(Kind::Zeros), &HINTS);
    add(all, GAP_SLICE, "gap of zeros/64K".into(), zeros);
}

fn databases(all: &mut Vec<Measure>) {
    for call in [LEAVES, RECOVER, GAPS, RECOVER_PAGE, GAP_PAGE, PAGE_DATA] {
        for (exact, way) in WAYS {
            for size in PAGE_SIZES.into_iter().filter(|_| way == ONE_BYTE || [GAPS, GAP_PAGE].contains(&call)) {
                add_if(all, call, format!("{exact}database/{size}"), move || of_database(call, way, size));
            }
        }
    }
}

fn of_database(call: u8, way: u64, size: usize) -> Result<Work, String> {
    let db = database(size)?;
    let (pages, width) = (db.len() / size, TABLE_HINTS.len());
    let sheet = room(db.len(), width);
    let tables: [&[u64]; 2] = [&[ROOT], &[width as u64]];
    let size = size as u64;
    let case = match call {
        LEAVES => Case::new(call, &[size, ROOT], &[&db], &[pages, pages, pages]),
        RECOVER | GAPS => {
            let lists = [pages, pages, sheet[0], sheet[1]];
            let numbers = if call == GAPS { vec![way, size] } else { vec![size] };
            Case::new(call, &numbers, &[&db, &TABLE_HINTS], &lists).with_words(&tables)
        }
        PAGE_DATA => Case::new(call, &[size, 1], &[&db], &[]),
        GAP_PAGE => Case::new(call, &[way, size, 1], &[&db, &TABLE_HINTS], &sheet),
        _ => Case::new(call, &[size, 1], &[&db, &TABLE_HINTS], &sheet),
    };
    let all_pages = 1..pages as u64 + 1;
    Ok(match call {
        PAGE_DATA | RECOVER_PAGE | GAP_PAGE => Work { case, values: all_pages },
        _ => Work::once(case),
    })
}

fn searches(all: &mut Vec<Measure>) {
    let patterns: [(&str, &[u8]); 3] =
        [("3 bytes", b"wet"), ("20 bytes", b"clay below, wet here"), ("64 bytes", &[7; 64])];
    for (size, length) in [SMALL, MIDDLE] {
        for name in ["text", "random"] {
            for (long, pattern) in patterns {
                let kind = kind(name);
                let input = format!("{long} in {name}/{size}");
                add(all, SEARCH, input, move || search(&bytes(kind, length), pattern));
            }
        }
    }
    add(all, SEARCH, "64 zeros in zeros/64K".into(), || search(&bytes(Kind::Zeros, SMALL.1), &[0; 64]));
}

fn search(haystack: &[u8], pattern: &[u8]) -> Work {
    Work::once(Case::new(SEARCH, &[], &[haystack, pattern], &[haystack.len()]))
}

fn statements(all: &mut Vec<Measure>) {
    for (columns, length) in [(4, 0), (120, 0), (120, 60_000)] {
        let long = if length > 0 { "long columns" } else { "columns" };
        add(all, STATEMENT, format!("statement/{columns} {long}"), move || {
            Work::once(Case::new(STATEMENT, &[], &[&inputs::statement(columns, length)], &[columns]))
        });
    }
}

/// The bytes of the types 0 to 7.
const LENGTHS: [u64; 8] = [0, 1, 2, 3, 4, 6, 8, 8];
/// Every type of an integer that has a body.
const INTEGERS: [(&str, u64); 6] =
    [("1 byte", 1), ("2 bytes", 2), ("3 bytes", 3), ("4 bytes", 4), ("6 bytes", 5), ("8 bytes", 6)];

fn values(all: &mut Vec<Measure>) {
    for name in ["text", "random", "high"] {
        let kind = kind(name);
        add(all, READ_VARINT, format!("{name}/64K"), move || every_offset(READ_VARINT, &[0], kind));
    }
    for (name, kind) in INTEGERS {
        add(all, DECODE, format!("{name} below 0/64K"), move || every_offset(DECODE, &[kind, 0], Kind::High));
    }
    let others = [("a real", 7), ("20 letters", 53), ("20-byte blob", 52)];
    for (name, kind) in INTEGERS.into_iter().chain(others) {
        add(all, DECODE, format!("{name}/64K"), move || every_offset(DECODE, &[kind, 0], Kind::Text));
        let length = if kind > 11 { (kind - 12) / 2 } else { LENGTHS[kind as usize] };
        add(all, READ_ENTRY, format!("{name}/64K"), move || {
            let work = every_offset(READ_ENTRY, &[0, kind, 0, length], Kind::Text);
            Work { values: 0..work.values.end - length, ..work }
        });
    }
    add(all, BODY_LENGTH, "types/65536".into(), || Work {
        case: Case::new(BODY_LENGTH, &[0], &[], &[]),
        values: 0..TIMES,
    });
    for hint in 0..6 {
        add(all, COMPATIBLE, format!("hint {hint}/65536"), move || Work {
            case: Case::new(COMPATIBLE, &[hint, 0], &[], &[]),
            values: 0..TIMES,
        });
    }
}

fn every_offset(call: u8, numbers: &[u64], kind: Kind) -> Work {
    let case = Case::new(call, numbers, &[&bytes(kind, SMALL.1)], &[]);
    Work { case, values: 0..SMALL.1 as u64 }
}
