//! One attempt and the region scan.

use super::sheet::{header, same_columns, same_words, Row, SCANNED};
use super::value::hint_of;
use super::{all, held, Given};
use crate::case::{Answer, Case};
use crate::rules::attempt::{self, Found};
use crate::rules::limits::{room, Limits, WORDS_PER_ENTRY, WORDS_PER_ROW};
use crate::rules::value::body_length;
use given::schema_sig::{CarvedCandidate, SchemaSignature};

const OUT: usize = 3;
const LISTS: usize = 2;

/// The parts of a case of either call.
struct Parts<'a> {
    base: u64,
    at: usize,
    region: &'a [u8],
    hints: &'a [u8],
    room: usize,
}

fn parts(case: &Case) -> Parts<'_> {
    let hints = &case.slices[1];
    Parts {
        base: case.numbers[0],
        at: case.numbers[1] as usize,
        region: &case.slices[0],
        hints,
        room: room(case.lists[0], case.lists[1], hints.len().max(1)),
    }
}

fn write_row(answer: &mut Answer, base: u64, o: usize, columns: usize, found: &Found) {
    let row = Row {
        offset: base + o as u64,
        consumed: found.consumed,
        id: None,
        source: SCANNED,
        percent: 0,
        confidence: found.suited as f32 / columns as f32,
        mode: 0,
        padded: found.padded,
    };
    answer.lists[0].extend(row.words());
    answer.lists[1].extend(entries(o as u64, found));
}

/// The entries of a row that begins at `at` in the lent slice.
pub fn entries(at: u64, found: &Found) -> Vec<u64> {
    let mut start = at + found.header;
    let mut words = Vec::new();
    for &kind in &found.kinds {
        let length = body_length(kind).unwrap_or(0);
        words.extend([0, kind, start, length]);
        start += length;
    }
    words
}

pub fn attempt(limits: &Limits, case: &Case) -> Answer {
    let p = parts(case);
    if let Some(number) = limits.region_refusal(p.region, p.hints, p.base, None) {
        return Answer::refused(number, OUT, LISTS);
    }
    let Some(found) = attempt::attempt(limits, p.region, p.hints, p.at).found else {
        return Answer::refused(0, OUT, LISTS);
    };
    if p.room == 0 {
        return Answer::refused(9, OUT, LISTS);
    }
    let mut answer = Answer::refused(0, OUT, LISTS);
    answer.out[0] = 1;
    write_row(&mut answer, p.base, p.at, p.hints.len(), &found);
    answer
}

pub fn scan(limits: &Limits, case: &Case) -> Answer {
    let p = parts(case);
    if let Some(number) = limits.region_refusal(p.region, p.hints, p.base, None) {
        return Answer::refused(number, OUT, LISTS);
    }
    let scan = attempt::scan(limits, p.region, p.hints, p.at, p.room);
    let mut answer = Answer::refused(if scan.full { 9 } else { 0 }, OUT, LISTS);
    answer.out = vec![scan.rows.len() as u64, scan.place as u64, scan.read];
    for (o, found) in &scan.rows {
        write_row(&mut answer, p.base, *o, p.hints.len(), found);
    }
    answer
}

pub fn signature(hints: &[u8]) -> Option<SchemaSignature> {
    Some(SchemaSignature {
        table_name: String::new(),
        column_count: hints.len(),
        type_hints: hints.iter().map(|&h| hint_of(h)).collect::<Option<_>>()?,
    })
}

/// Refusals 1 to 4 have no counterpart in the Rust.
fn in_the_domain(answer: &Answer) -> bool {
    answer.number == 0 || answer.number == 9
}

pub fn given_attempt(case: &Case, answer: &Answer) -> Given {
    let p = parts(case);
    let Some(signature) = signature(p.hints).filter(|_| in_the_domain(answer)) else {
        return Given::NotAsked;
    };
    let rust = signature.try_parse_record(p.region, p.at);
    let found = answer.number == 9 || answer.out[0] == 1;
    match rust {
        Some(row) if answer.number == 0 && found => same_row(&p, 0, &row, answer, 0),
        _ => held("a row", rust.is_some(), found),
    }
}

/// A scan from a start above 0 is the Rust's over the part that begins there.
pub fn given_scan(case: &Case, answer: &Answer) -> Given {
    let p = parts(case);
    let Some(signature) = signature(p.hints).filter(|_| in_the_domain(answer)) else {
        return Given::NotAsked;
    };
    let start = p.at.min(p.region.len());
    let rust = signature.scan_region(&p.region[start..]);
    let written = answer.out[0] as usize;
    let next = rust.get(p.room).map(|row| start + row.byte_offset);
    let place = next.unwrap_or(p.region.len());
    let ends = all([
        held("rows written", rust.len().min(p.room), written),
        held("refusal", if next.is_some() { 9 } else { 0 }, answer.number),
        held("place", place as u64, answer.out[1]),
    ]);
    if ends != Given::Agrees {
        return ends;
    }
    let rows = rust.iter().take(written).enumerate();
    all(rows.map(|(i, row)| same_row(&p, start, row, answer, i)))
}

/// Row i of the answer against a row of the Rust. The Rust keeps no types: they are read again with its own reader.
fn same_row(p: &Parts, start: usize, rust: &CarvedCandidate, answer: &Answer, i: usize) -> Given {
    let at = start + rust.byte_offset;
    let row = &answer.lists[0][i * WORDS_PER_ROW..][..WORDS_PER_ROW];
    let expected = Row {
        offset: p.base + at as u64,
        consumed: rust.bytes_consumed as u64,
        id: rust.row_id.map(|id| id as u64),
        source: SCANNED,
        percent: 0,
        confidence: rust.confidence,
        mode: 0,
        padded: false,
    };
    let width = WORDS_PER_ENTRY * p.hints.len();
    let group = &answer.lists[1][i * width..][..width];
    let Some(header) = header(&p.region[at..], usize::MAX) else {
        return Given::Differs("the Rust's reader sees no header where the Rust has a row".into());
    };
    let columns = same_columns(p.region, at, &header, &rust.values, rust.bytes_consumed, group);
    all([same_words(&expected, row), columns])
}
