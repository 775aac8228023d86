//! Rows out of free blocks: of a page slice, of one page of a database, and of all leaves of lent tables.

use super::forms::{self, Rooted, Table};
use super::scan::entries;
use super::sheet::{Header, Row, Said, Sheet, FREELIST};
use super::{all, held, Given};
use crate::case::{Answer, Case};
use crate::rules::freeblock::rows;
use crate::rules::limits::Limits;
use crate::rules::page::{self, Page};
use given::context::RecoveryContext;
use given::freeblock::{collect_freeblocks, recover_freeblocks, try_parse_header, validate_and_decode};
use given::header::DbHeader;
use given::pragma::PragmaInfo;
use given::record::RecoveredRecord;
use given::schema_sig::SchemaSignature;
use given::EvidenceSource;
use std::collections::HashMap;

fn carve(limits: &Limits, sheet: &mut Sheet, page: &Page, table: &Table) -> bool {
    rows(limits, page.bytes, page.header, table.hints).into_iter().all(|(at, found)| {
        let place = (page.start + at) as u64;
        let row = Row {
            offset: table.base + place,
            consumed: found.consumed,
            id: None,
            source: FREELIST,
            percent: 0,
            confidence: found.suited as f32 / found.kinds.len() as f32 * limits.freed,
            mode: 4 * table.index as u64,
            padded: found.padded,
        };
        sheet.put(&row, &entries(place, &found))
    })
}

pub fn slice(limits: &Limits, case: &Case) -> Answer {
    forms::slice(limits, case, carve)
}

pub fn page(limits: &Limits, case: &Case) -> Answer {
    forms::page(limits, case, carve)
}

pub fn tables(limits: &Limits, case: &Case) -> Answer {
    forms::tables(limits, case, carve)
}

fn said(record: RecoveredRecord) -> Said {
    Said { record, mode: 0, header: Header::Whole }
}

/// The Rust's rows of one page, out of the parts that its walk is made of.
pub fn rust_page(signature: &SchemaSignature, page: &[u8], head: usize, base: u64) -> Vec<Said> {
    let mut rows = Vec::new();
    for block in collect_freeblocks(page, head) {
        let payload = &block.data[4..];
        let row = (0..payload.len().min(20)).find_map(|v| {
            let part = &payload[v..];
            let (kinds, bodies) = try_parse_header(part, 0)?;
            let (values, confidence) = validate_and_decode(signature, &kinds, part, bodies)?;
            let offset = base + (block.page_offset + 4 + v) as u64;
            let (table, source) = (String::new(), EvidenceSource::Freelist);
            Some(said(RecoveredRecord { table, row_id: None, values, source, offset, confidence }))
        });
        rows.extend(row);
    }
    rows
}

/// Every block of the chain, those without a row too.
fn same_chain(page: &[u8], head: usize) -> Given {
    let rust: Vec<_> = collect_freeblocks(page, head).into_iter().map(|b| (b.page_offset, b.data)).collect();
    let blocks = page::chain(&Limits::of_the_rules(), page, head);
    held("chain", rust, blocks.iter().map(|b| (b.start, page[b.start..][..b.size].to_vec())).collect())
}

pub fn given_slice(case: &Case, answer: &Answer) -> Given {
    match forms::given_slice(case, answer, rust_page) {
        Given::NotAsked => Given::NotAsked,
        rows => all([same_chain(&case.slices[0], case.numbers[0] as usize), rows]),
    }
}

pub fn given_page(case: &Case, answer: &Answer) -> Given {
    forms::given_page(case, answer, rust_page, rust_tables)
}

/// One table at a time, since the Rust takes them in a hash map's order.
fn rust_tables(tables: &[Rooted], db: &[u8], size: u64) -> Vec<Said> {
    tables.iter().flat_map(|table| rust_table(table, db, size)).map(said).collect()
}

fn rust_table(table: &Rooted, db: &[u8], size: u64) -> Vec<RecoveredRecord> {
    recover_freeblocks(&context(table, db, size))
}

/// What the Rust is told of one table.
pub fn context<'a>(table: &Rooted, db: &'a [u8], size: u64) -> RecoveryContext<'a> {
    RecoveryContext {
        db,
        page_size: size as u32,
        header: &DbHeader,
        table_roots: HashMap::from([(table.signature.table_name.clone(), table.root)]),
        schema_signatures: vec![table.signature.clone()],
        pragma_info: PragmaInfo,
    }
}

pub fn given_tables(case: &Case, answer: &Answer) -> Given {
    forms::given_tables(case, answer, rust_tables)
}
