//! Rows out of gaps and of the cells in free blocks: of one block, of a page slice, of one page of a database, and of all
//! leaves of lent tables.

use super::forms::{self, Rooted, Table};
use super::scan::{entries, signature};
use super::sheet::{same_rows, Header, Lent, Row, Said, Sheet, INTRA_PAGE};
use super::{rebuilding, Given};
use crate::case::{Answer, Case};
use crate::rules::gap::{block_rows, rows, Carved, Origin, Sought};
use crate::rules::limits::{room, Limits, NO_GUESSES};
use crate::rules::page::Page;
use crate::rules::walk::End;
use given::btree::get_page_data;
use given::gap::{collect_leaf_pages, parse_cells_from_freeblock, scan_page_gaps, scan_single_page_gap};
use given::record::RecoveredRecord;
use given::schema_sig::SchemaSignature;

/// Writes rows of a part of the lent slice that begins at `start`.
fn write(limits: &Limits, sheet: &mut Sheet, rows: Vec<Carved>, start: usize, table: &Table) -> bool {
    rows.into_iter().all(|carved| {
        let place = (start + carved.at) as u64;
        let confidence = carved.confidence(limits);
        let id = match carved.origin {
            Origin::Cell(id) => Some(id),
            Origin::Gap | Origin::Rebuilt => None,
        };
        let row = Row {
            offset: table.base + place,
            consumed: carved.found.consumed,
            id,
            source: INTRA_PAGE,
            percent: (limits.percent)(confidence),
            confidence,
            mode: 4 * table.index as u64,
            padded: carved.found.padded,
        };
        let fits = sheet.put(&row, &entries(place, &carved.found));
        sheet.rebuilt.extend(fits.then_some(carved.origin == Origin::Rebuilt));
        fits
    })
}

fn sought<'a>(table: &Table<'a>) -> Sought<'a> {
    Sought { hints: table.hints, rebuilding: table.rebuilding.unwrap_or(NO_GUESSES) }
}

fn carve(limits: &Limits, sheet: &mut Sheet, page: &Page, table: &Table) -> bool {
    write(limits, sheet, rows(limits, page.bytes, page.header, sought(table)), page.start, table)
}

pub fn tables(limits: &Limits, case: &Case) -> Answer {
    forms::tables(limits, case, carve)
}

pub fn page(limits: &Limits, case: &Case) -> Answer {
    forms::page(limits, case, carve)
}

pub fn slice(limits: &Limits, case: &Case) -> Answer {
    forms::slice(limits, case, carve)
}

pub fn block(limits: &Limits, case: &Case) -> Answer {
    let (rebuilding, numbers) = rebuilding(case);
    let (payload, hints, base) = (&case.slices[0], &case.slices[1], numbers[0]);
    if let Some(number) = limits.region_refusal(payload, hints, base, rebuilding) {
        return Answer::refused(number, 1, 2);
    }
    let mut sheet = Sheet::new(case.lists[0], case.lists[1], hints.len());
    let table = Table { index: 0, hints, base, rebuilding };
    let whole = write(limits, &mut sheet, block_rows(limits, payload, sought(&table)), 0, &table);
    sheet.answer(if whole { End::Through } else { End::NoRoom }, Vec::new())
}

/// The gap's rows come first and have no id; in a block a row with an id is a cell's, and one without is rebuilt.
fn said(rows: Vec<RecoveredRecord>, of_the_gap: usize) -> Vec<Said> {
    let header = |i: usize, record: &RecoveredRecord| match record.row_id {
        None if i >= of_the_gap => Header::Rebuilt,
        _ => Header::Whole,
    };
    rows.into_iter().enumerate().map(|(i, r)| Said { header: header(i, &r), record: r, mode: 0 }).collect()
}

fn rust_page(signature: &SchemaSignature, page: &[u8], head: usize, base: u64) -> Vec<Said> {
    let rows = scan_single_page_gap(page, head, "", Some(signature), base);
    let of_the_gap = if rows.iter().any(|row| row.row_id.is_none()) { gap_rows(signature, page, head) } else { 0 };
    said(rows, of_the_gap)
}

/// How many rows the Rust finds where the page's header names no first block.
fn gap_rows(signature: &SchemaSignature, page: &[u8], head: usize) -> usize {
    let mut page = page.to_vec();
    page[head + 1..head + 3].fill(0);
    scan_single_page_gap(&page, head, "", Some(signature), 0).len()
}

/// All tables at once; what the header of each row is like is seen leaf by leaf.
fn rust_tables(tables: &[Rooted], db: &[u8], size: u64) -> Vec<Said> {
    let roots: Vec<(String, u32)> = tables.iter().map(|t| (t.signature.table_name.clone(), t.root)).collect();
    let signatures: Vec<SchemaSignature> = tables.iter().map(|t| t.signature.clone()).collect();
    let rows = scan_page_gaps(db, size as u32, &roots, &signatures);
    let by_leaf: Vec<Said> = tables.iter().flat_map(|table| leaf_by_leaf(table, db, size)).collect();
    assert_eq!(rows.len(), by_leaf.len(), "the Rust's rows of a walk are those of its leaves");
    rows.into_iter().zip(by_leaf).map(|(record, said)| Said { record, ..said }).collect()
}

fn leaf_by_leaf(table: &Rooted, db: &[u8], size: u64) -> Vec<Said> {
    let leaves = collect_leaf_pages(db, size as u32, table.root).into_iter();
    let pages = leaves.filter_map(|number| get_page_data(db, number, size as usize));
    pages.flat_map(|(page, head)| rust_page(&table.signature, page, head, 0)).collect()
}

pub fn given_tables(case: &Case, answer: &Answer) -> Given {
    forms::given_tables(case, answer, rust_tables)
}

pub fn given_page(case: &Case, answer: &Answer) -> Given {
    forms::given_page(case, answer, rust_page, rust_tables)
}

pub fn given_slice(case: &Case, answer: &Answer) -> Given {
    forms::given_slice(case, answer, rust_page)
}

/// The Rust copies what is left of a block at every byte of it: above this it takes too long.
const LONGEST_BLOCK: usize = 70_000;

pub fn given_block(case: &Case, answer: &Answer) -> Given {
    let (payload, hints, base) = (&case.slices[0], &case.slices[1], rebuilding(case).1[0]);
    let asked = matches!(answer.number, 0 | 9) && payload.len() <= LONGEST_BLOCK && forms::in_the_rust(case);
    let Some(signature) = signature(hints).filter(|_| asked) else {
        return Given::NotAsked;
    };
    let rows = parse_cells_from_freeblock(payload, &signature, "", base);
    let room = room(case.lists[0], case.lists[1], hints.len());
    same_rows(&Lent { bytes: payload, base, room, width: hints.len() }, &said(rows, 0), answer)
}
