//! The given Rust: the function that each call carries over, with its own input made beforehand.

use crate::calls::forms::{in_the_rust, lent_tables, rooted, Rooted};
use crate::calls::freeblock::{context, rust_page};
use crate::calls::learn::{database, groups, record};
use crate::calls::scan::signature;
use crate::calls::value::hint_of;
use crate::calls::*;
use crate::case::Case;
use given::btree::get_page_data;
use given::carver::carve_freeblock;
use given::freeblock::{collect_leaf_pages, recover_freeblocks};
use given::gap::{parse_cells_from_freeblock, scan_page_gaps, scan_single_page_gap};
use given::record::{decode_serial_type, RecoveredRecord};
use given::schema_sig::{boyer_moore_search, SchemaSignature};
use given::unalloc::{carve_unallocated, learn_signatures};
use given::varint::read_varint;
use given::UnallocatedRegion;
use std::any::Any;
use std::hint::black_box;
use std::ops::Range;

/// Makes the call with one value after the other, and hands back what the last one returned, so that taking apart a
/// single call's answer does not count.
pub type Rust<'a> = Box<dyn Fn(Range<u64>) -> Box<dyn Any> + 'a>;

fn made<'a, T: 'static>(call: impl Fn(u64) -> T + 'a) -> Option<Rust<'a>> {
    Some(Box::new(move |values| {
        let last = values.end - 1;
        for value in values.start..last {
            black_box(&call(value));
        }
        Box::new(call(last))
    }))
}

/// None where the Rust has no such call.
pub fn of(case: &Case) -> Option<Rust<'_>> {
    match case.call {
        _ if !in_the_rust(case) => None,
        READ_VARINT | DECODE | COMPATIBLE => of_values(case),
        STATEMENT | SEARCH | LEARN | UNALLOC | MODES => of_others(case),
        PAGE_DATA | LEAVES | RECOVER | GAPS => of_database(case),
        _ => of_hints(case),
    }
}

fn of_values(case: &Case) -> Option<Rust<'_>> {
    let first = case.numbers[0];
    match case.call {
        READ_VARINT => made(|v| read_varint(&case.slices[0], v as usize)),
        DECODE => made(move |v| decode_serial_type(first, &case.slices[0], v as usize)),
        _ => {
            let hint = hint_of(first as u8)?;
            made(move |v| SchemaSignature::is_compatible(&hint, v))
        }
    }
}

fn of_others(case: &Case) -> Option<Rust<'_>> {
    let bytes = &case.slices[0][..];
    match case.call {
        STATEMENT => {
            let text = std::str::from_utf8(bytes).ok()?;
            made(move |_| SchemaSignature::from_create_sql("", text))
        }
        SEARCH => made(|_| boyer_moore_search(bytes, &case.slices[1])),
        LEARN => {
            let records: Vec<RecoveredRecord> = groups(case).map(|group| record(group, bytes)).collect();
            made(move |_| learn_signatures(&records))
        }
        UNALLOC => {
            let region = UnallocatedRegion { offset: case.numbers[0], data: bytes.to_vec() };
            let database = database(&case.words[0]);
            made(move |_| carve_unallocated(&region, &database, ""))
        }
        _ => made(|v| carve_freeblock(bytes, v as usize, "", case.numbers[1] as usize)),
    }
}

fn of_database(case: &Case) -> Option<Rust<'_>> {
    let (db, size) = (&case.slices[0][..], rebuilding(case).1[0]);
    match case.call {
        PAGE_DATA => made(move |v| get_page_data(db, v as u32, size as usize).map(|found| (found.0.as_ptr(), found.1))),
        LEAVES => made(move |_| collect_leaf_pages(db, size as u32, case.numbers[1] as u32)),
        RECOVER => {
            let context = context(tables(case).first()?, db, size);
            made(move |_| recover_freeblocks(&context))
        }
        _ => {
            let tables = tables(case);
            let roots: Vec<(String, u32)> = tables.iter().map(|t| (t.signature.table_name.clone(), t.root)).collect();
            let signatures: Vec<SchemaSignature> = tables.into_iter().map(|t| t.signature).collect();
            made(move |_| scan_page_gaps(db, size as u32, &roots, &signatures))
        }
    }
}

fn tables(case: &Case) -> Vec<Rooted> {
    let lent = lent_tables(case).into_iter().enumerate();
    lent.filter_map(|(i, (root, hints))| rooted(i, root as u32, hints)).collect()
}

fn of_hints(case: &Case) -> Option<Rust<'_>> {
    let bytes = &case.slices.first()?[..];
    let signature = signature(case.slices.get(1)?)?;
    let numbers = rebuilding(case).1;
    let (first, second) = (numbers[0], numbers.get(1).copied().unwrap_or(0));
    let size = first as usize;
    match case.call {
        ATTEMPT => made(move |v| signature.try_parse_record(bytes, v as usize)),
        SCAN => made(move |_| signature.scan_region(bytes)),
        BLOCK => made(move |_| parse_cells_from_freeblock(bytes, &signature, "", first)),
        RECOVER_SLICE => made(move |_| rust_page(&signature, bytes, size, second)),
        GAP_SLICE => made(move |_| scan_single_page_gap(bytes, size, "", Some(&signature), second)),
        RECOVER_PAGE => made(move |v| {
            let (page, head) = get_page_data(bytes, v as u32, size)?;
            Some(rust_page(&signature, page, head, (v - 1) * first))
        }),
        GAP_PAGE => made(move |v| {
            let (page, head) = get_page_data(bytes, v as u32, size)?;
            Some(scan_single_page_gap(page, head, "", Some(&signature), (v - 1) * first))
        }),
        _ => None,
    }
}
