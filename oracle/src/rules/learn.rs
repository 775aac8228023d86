//! Types learned from rows, and rows carved by them.

use crate::rules::attempt::types;
use crate::rules::limits::Limits;
use crate::rules::value::{body_length, read_entry, Value, BLOB, INTEGER, REAL, TEXT};
use crate::rules::varint::whole;
use std::collections::BTreeMap;

const UNUSED: u64 = 3;

/// The values of a row's used entries; none where an entry is bad or an unused one stands before a used one.
pub fn row(group: &[u64], bytes: &[u8]) -> Option<Vec<Value>> {
    let entries: Vec<[u64; 4]> = group.chunks_exact(4).map(|e| [e[0], e[1], e[2], e[3]]).collect();
    let used = entries.iter().take_while(|e| e[0] != UNUSED).count();
    let unused = entries[used..].iter().all(|e| e[0] == UNUSED);
    entries[..used].iter().map(|&e| read_entry(e, bytes)).collect::<Option<_>>().filter(|_| unused)
}

/// The type that a value counts as, whatever type it was stored with.
pub fn type_of(limits: &Limits, value: &Value) -> u64 {
    match value.tag {
        INTEGER if value.bits <= 1 => limits.zero_and_one,
        INTEGER => {
            let fits = |bits: u32| value.bits as i64 >> (bits - 1) == 0 || value.bits as i64 >> (bits - 1) == -1;
            limits.integers.iter().find(|(bits, _)| fits(*bits)).map_or(0, |of| of.1)
        }
        REAL => 7,
        TEXT => 13 + 2 * value.length,
        BLOB => 12 + 2 * value.length,
        _ => 0,
    }
}

/// How often each type comes in each column of the rows; as many columns as the longest row has.
pub fn counts(limits: &Limits, rows: &[Vec<Value>]) -> Vec<BTreeMap<u64, usize>> {
    let mut counts = vec![BTreeMap::new(); rows.iter().map(Vec::len).max().unwrap_or(0)];
    for row in rows {
        for (column, value) in counts.iter_mut().zip(row) {
            *column.entry(type_of(limits, value)).or_default() += 1;
        }
    }
    counts
}

/// The types that come most often, rising.
pub fn commonest(counts: &BTreeMap<u64, usize>) -> Vec<u64> {
    let most = counts.values().max();
    counts.iter().filter(|of| Some(of.1) == most).map(|of| *of.0).collect()
}

pub fn learned(limits: &Limits, counts: &BTreeMap<u64, usize>) -> u64 {
    commonest(counts).into_iter().reduce(limits.tie).unwrap_or(0)
}

/// Whether a type is of the same class as a learned one.
pub fn matches(kind: u64, learned: u64) -> bool {
    let integer = |kind: u64| matches!(kind, 1..=6 | 8 | 9);
    let bytes = |kind: u64| kind >= 12;
    kind == learned || (integer(kind) && integer(learned)) || (bytes(kind) && bytes(learned) && kind % 2 == learned % 2)
}

pub struct Carved {
    pub at: usize,
    pub percent: u64,
    pub consumed: usize,
    pub entries: Vec<u64>,
    pub padded: bool,
}

pub fn rows(limits: &Limits, region: &[u8], learned: &[u64]) -> Vec<Carved> {
    let mut rows = Vec::new();
    let mut at = 0;
    while at + limits.before_types + learned.len() <= region.len() {
        let found = attempt(limits, region, learned, at);
        at += found.as_ref().map_or(1, |row| row.consumed);
        rows.extend(found);
    }
    rows
}

fn attempt(limits: &Limits, region: &[u8], learned: &[u64], at: usize) -> Option<Carved> {
    let part = &region[at..];
    let own = whole(limits, part, 0)?;
    let header = own.value;
    if header < own.width as u64 || header > part.len() as u64 || header > limits.most_header {
        return None;
    }
    let types = types(limits, part, own.width, header, learned.len()).ok()?;
    let padded = (limits.marks.header)(own.padded, types.padded);
    let matched = types.kinds.iter().zip(learned).filter(|(kind, learned)| matches(**kind, **learned)).count();
    let mut end = at + header as usize;
    let mut entries = Vec::new();
    for kind in types.kinds {
        let length = body_length(kind).filter(|&length| length <= (region.len() - end) as u64)?;
        entries.extend([0, kind, end as u64, length]);
        end += length as usize;
    }
    let percent = (limits.matched)(matched, learned.len());
    (matched > 0).then_some(Carved { at, percent, consumed: end - at, entries, padded })
}
