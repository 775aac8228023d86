//! Types learned from rows, and a region carved by learned types.

use super::sheet::{same_rows, Header, Lent, Row, Said, Sheet, UNALLOCATED};
use super::statement::list;
use super::{all, held, Given};
use crate::case::{Answer, Case};
use crate::rules::learn::{commonest, counts, learned, row, rows};
use crate::rules::limits::{first, room, Limits, WORDS_PER_ENTRY};
use crate::rules::value::{Value, TEXT};
use crate::rules::walk::End;
use given::record::{decode_serial_type, RecoveredRecord, SqlValue};
use given::unalloc::{carve_unallocated, learn_signatures, ColumnPattern, SignatureDb};
use given::{EvidenceSource, UnallocatedRegion};

/// The whole groups of a list of entries; the rest behind them is not read.
pub fn groups(case: &Case) -> std::slice::ChunksExact<'_, u64> {
    let width = (case.numbers[0] as usize).clamp(1, 1 << 32);
    case.words[0].chunks_exact(WORDS_PER_ENTRY * width)
}

/// The values of all rows; none where one of them is bad.
fn values(case: &Case) -> Option<Vec<Vec<Value>>> {
    groups(case).map(|group| row(group, &case.slices[0])).collect()
}

pub fn learn(limits: &Limits, case: &Case) -> Answer {
    let (bytes, rows) = (&case.slices[0], values(case));
    let refused = first(&[
        (1, limits.bad_count(case.numbers[0])),
        (2, rows.is_none()),
        (3, bytes.len() > limits.region || groups(case).len() > limits.learned_rows),
    ]);
    match rows.filter(|_| refused.is_none()) {
        Some(rows) => list(counts(limits, &rows).iter().map(|c| learned(limits, c)).collect(), case.lists[0]),
        None => Answer::refused(refused.unwrap_or(0), 1, 1),
    }
}

/// A row as the Rust has it: the values that it decodes itself.
pub fn record(group: &[u64], bytes: &[u8]) -> RecoveredRecord {
    let used = group.chunks(WORDS_PER_ENTRY).take_while(|entry| entry[0] != 3);
    let value = |entry: &[u64]| match entry[0] {
        0 => decode_serial_type(entry[1], bytes, entry[2] as usize).map_or(SqlValue::Null, |v| v.0),
        _ => SqlValue::Null,
    };
    let values = used.map(value).collect();
    let source = EvidenceSource::Live;
    RecoveredRecord { table: String::new(), row_id: None, values, source, offset: 0, confidence: 1.0 }
}

/// Not asked: texts that are not UTF-8, since the Rust has a text's length after its lossy step, and columns with a tie,
/// where it takes any of the commonest types. The other columns are compared all the same.
pub fn given_learn(case: &Case, answer: &Answer) -> Given {
    let Some(rows) = values(case).filter(|_| matches!(answer.number, 0 | 9)) else {
        return Given::NotAsked;
    };
    let bytes = &case.slices[0];
    let part = |v: &Value| &bytes[v.start as usize..][..v.length as usize];
    if rows.iter().flatten().any(|v| v.tag == TEXT && std::str::from_utf8(part(v)).is_err()) {
        return Given::NotAsked;
    }
    let records: Vec<RecoveredRecord> = groups(case).map(|group| record(group, bytes)).collect();
    let database = learn_signatures(&records);
    let rust: Vec<u64> = database.patterns_for("").iter().map(|p| p.serial_type_hint).collect();
    let ends = all([
        held("columns", database.patterns_for("").iter().map(|p| p.col_index).eq(0..rust.len()), true),
        held("refusal", if rust.len() > case.lists[0] { 9 } else { 0 }, answer.number),
        held("types written", rust.len().min(case.lists[0]), answer.lists[0].len()),
    ]);
    let tied: Vec<Vec<u64>> = counts(&Limits::of_the_rules(), &rows).iter().map(commonest).collect();
    let columns = rust.iter().zip(&tied).zip(&answer.lists[0]).map(|((rust, tied), rules)| match tied.len() {
        1 => held("type", rust, rules),
        _ => held("one of the commonest", tied.contains(rust), tied.contains(rules)),
    });
    match all([ends, all(columns)]) {
        Given::Agrees if tied.iter().any(|types| types.len() > 1) => Given::NotAsked,
        given => given,
    }
}

pub fn carve(limits: &Limits, case: &Case) -> Answer {
    let (region, types, base) = (&case.slices[0], &case.words[0], case.numbers[0]);
    if let Some(number) = limits.columns_refusal(region, types.len() as u64, base) {
        return Answer::refused(number, 1, 2);
    }
    let mut sheet = Sheet::new(case.lists[0], case.lists[1], types.len());
    let whole = rows(limits, region, types).into_iter().all(|carved| {
        let row = Row {
            offset: base + carved.at as u64,
            consumed: carved.consumed as u64,
            id: None,
            source: UNALLOCATED,
            percent: carved.percent,
            confidence: carved.percent as f32 / 100.0,
            mode: 0,
            padded: carved.padded,
        };
        sheet.put(&row, &carved.entries)
    });
    sheet.answer(if whole { End::Through } else { End::NoRoom }, Vec::new())
}

/// Types as the Rust has learned them.
pub fn database(types: &[u64]) -> SignatureDb {
    let pattern = |(col_index, &serial_type_hint)| ColumnPattern { table: String::new(), col_index, serial_type_hint };
    SignatureDb { patterns: types.iter().enumerate().map(pattern).collect() }
}

pub fn given_carve(case: &Case, answer: &Answer) -> Given {
    if !matches!(answer.number, 0 | 9) {
        return Given::NotAsked;
    }
    let (region, types, base) = (&case.slices[0], &case.words[0], case.numbers[0]);
    let rust = carve_unallocated(&UnallocatedRegion { offset: base, data: region.clone() }, &database(types), "");
    let width = types.len();
    let rows: Vec<Said> =
        rust.into_iter().map(|record| Said { record, mode: 0, header: Header::UpTo(width) }).collect();
    let room = room(case.lists[0], case.lists[1], width);
    same_rows(&Lent { bytes: region, base, room, width }, &rows, answer)
}
