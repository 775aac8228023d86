//! The forms in which pages are carved: a page slice, a page of a database, and all leaves of lent tables.

use super::page::{cleared, enough_flags, page_number, walked};
use super::scan::signature;
use super::sheet::{same_rows, Lent, Said, Sheet};
use super::{held, rebuilding, Given};
use crate::case::{Answer, Case};
use crate::rules::limits::{first, room, Limits, ONE_BYTE};
use crate::rules::page::{self, Page};
use crate::rules::walk::{walk, End};
use given::btree::get_page_data;
use given::schema_sig::SchemaSignature;

/// A table's index and hints, the base of the slice, and the way in which headers are rebuilt, if they are.
pub struct Table<'a> {
    pub index: usize,
    pub hints: &'a [u8],
    pub base: u64,
    pub rebuilding: Option<u64>,
}

/// Writes the rows of one page; false where one found no room.
pub type Carver = fn(&Limits, &mut Sheet, &Page, &Table) -> bool;

fn carve(limits: &Limits, case: &Case, page: &Page, base: u64, carver: Carver) -> Answer {
    let hints = &case.slices[1];
    let mut sheet = Sheet::new(case.lists[0], case.lists[1], hints.len());
    let whole = carver(limits, &mut sheet, page, &Table { index: 0, hints, base, rebuilding: rebuilding(case).0 });
    sheet.answer(if whole { End::Through } else { End::NoRoom }, Vec::new())
}

pub fn slice(limits: &Limits, case: &Case, carver: Carver) -> Answer {
    let (rebuilding, numbers) = rebuilding(case);
    let (head, base) = (numbers[0] as usize, numbers[1]);
    match limits.region_refusal(&case.slices[0], &case.slices[1], base, rebuilding) {
        Some(number) => Answer::refused(number, 1, 2),
        None => carve(limits, case, &Page { bytes: &case.slices[0], start: 0, header: head }, base, carver),
    }
}

pub fn page(limits: &Limits, case: &Case, carver: Carver) -> Answer {
    let (rebuilding, numbers) = rebuilding(case);
    let (db, size, number) = (&case.slices[0], numbers[0], numbers[1]);
    let found = page::page(limits, db, size, number);
    let of_the_page = first(&[(5, !limits.page_size(size)), (6, found.is_none())]);
    let refused = limits.region_refusal(db, &case.slices[1], 0, rebuilding).or(of_the_page);
    match found.filter(|_| refused.is_none()) {
        Some(page) => carve(limits, case, &page, 0, carver),
        None => Answer::refused(refused.unwrap_or(0), 1, 2),
    }
}

/// Each table's root and hints, where the lists belong together.
pub fn lent_tables(case: &Case) -> Vec<(u64, &[u8])> {
    let mut rest = &case.slices[1][..];
    let mut table = |(&root, &count): (&u64, &u64)| {
        let (hints, behind) = rest.split_at(count as usize);
        rest = behind;
        (root, hints)
    };
    case.words[0].iter().zip(&case.words[1]).map(&mut table).collect()
}

fn tables_refusal(limits: &Limits, case: &Case) -> Option<u64> {
    let (rebuilding, numbers) = rebuilding(case);
    let (db, hints, roots, counts) = (&case.slices[0], &case.slices[1], &case.words[0], &case.words[1]);
    let all_hints: u128 = counts.iter().map(|&c| u128::from(c)).sum();
    let unlike = roots.len() != counts.len() || all_hints != hints.len() as u128;
    first(&[
        (1, counts.iter().any(|&count| limits.bad_table(count, rebuilding))),
        (2, limits.unknown(rebuilding) || unlike || hints.iter().any(|&h| h > limits.hint)),
        (3, db.len() > limits.region || roots.len() > limits.tables),
        (5, !limits.page_size(numbers[0])),
    ])
}

pub fn tables(limits: &Limits, case: &Case, carver: Carver) -> Answer {
    if let Some(number) = tables_refusal(limits, case) {
        return Answer::refused(number, 1, 4);
    }
    let (rebuilding, numbers) = rebuilding(case);
    let (db, size) = (&case.slices[0], numbers[0]);
    let mut sheet = Sheet::new(case.lists[2], case.lists[3], widest(case));
    let mut end = if enough_flags(case) { End::Through } else { End::NoSpace };
    for (index, (root, hints)) in lent_tables(case).into_iter().enumerate() {
        if end == End::Through {
            let table = Table { index, hints, base: 0, rebuilding };
            let leaf = |_, page: &Page| carver(limits, &mut sheet, page, &table);
            (end, _) = walk(limits, db, size, root, case.lists[1], leaf);
        }
    }
    sheet.answer(end, cleared(case).to_vec())
}

fn widest(case: &Case) -> usize {
    case.words[1].iter().max().map_or(0, |&count| count as usize)
}

fn lent_page(case: &Case, base: u64) -> Lent<'_> {
    let width = case.slices[1].len();
    Lent { bytes: &case.slices[0], base, room: room(case.lists[0], case.lists[1], width.max(1)), width }
}

/// The Rust rebuilds headers in one way only.
pub fn in_the_rust(case: &Case) -> bool {
    rebuilding(case).0.is_none_or(|code| code == ONE_BYTE)
}

/// The Rust's rows of a page with its header's place and base.
pub type RustPage = fn(&SchemaSignature, &[u8], usize, u64) -> Vec<Said>;

pub fn given_slice(case: &Case, answer: &Answer, rust: RustPage) -> Given {
    let asked = matches!(answer.number, 0 | 9) && in_the_rust(case);
    let Some(signature) = signature(&case.slices[1]).filter(|_| asked) else {
        return Given::NotAsked;
    };
    let numbers = rebuilding(case).1;
    let (head, base) = (numbers[0] as usize, numbers[1]);
    same_rows(&lent_page(case, base), &rust(&signature, &case.slices[0], head, base), answer)
}

/// A table as the Rust has it: its name is its index.
pub struct Rooted {
    pub root: u32,
    pub signature: SchemaSignature,
}

pub fn rooted(index: usize, root: u32, hints: &[u8]) -> Option<Rooted> {
    Some(Rooted { root, signature: SchemaSignature { table_name: index.to_string(), ..signature(hints)? } })
}

/// The Rust's rows of all leaves of some tables in a database with pages of that size.
pub type RustTables = fn(&[Rooted], &[u8], u64) -> Vec<Said>;

/// A leaf is the whole tree of a table; on any other page the Rust's parts are asked.
pub fn given_page(case: &Case, answer: &Answer, rust: RustPage, tables: RustTables) -> Given {
    let asked = matches!(answer.number, 0 | 6 | 9) && in_the_rust(case);
    let numbers = rebuilding(case).1;
    let number = page_number(numbers[1]);
    let Some(table) = number.and_then(|number| rooted(0, number, &case.slices[1])).filter(|_| asked) else {
        return Given::NotAsked;
    };
    let (db, size) = (&case.slices[0], numbers[0]);
    let Some((page, head)) = get_page_data(db, table.root, size as usize) else {
        return held("no page", 6, answer.number);
    };
    let said = if page[head] == Limits::of_the_rules().leaf {
        tables(&[table], db, size)
    } else {
        rust(&table.signature, page, head, (u64::from(table.root) - 1) * size)
    };
    same_rows(&lent_page(case, 0), &said, answer)
}

/// The Rust has no roots above 2^32 - 1; the rules have no rows for them.
pub fn given_tables(case: &Case, answer: &Answer, rust: RustTables) -> Given {
    if !walked(case, answer) || !in_the_rust(case) {
        return Given::NotAsked;
    }
    let tables = lent_tables(case).into_iter().enumerate();
    let tables: Vec<Rooted> = tables.filter_map(|(i, (root, hints))| rooted(i, page_number(root)?, hints)).collect();
    let said = rust(&tables, &case.slices[0], rebuilding(case).1[0]);
    let width = widest(case);
    let room = room(case.lists[2], case.lists[3], width.max(1));
    same_rows(&Lent { bytes: &case.slices[0], base: 0, room, width }, &said, answer)
}
