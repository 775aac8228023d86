//! The three modes in which a freed block is read: with its header, with its types alone, and with its first column lost.

use crate::rules::attempt::{types, Types};
use crate::rules::limits::Limits;
use crate::rules::value::decode;
use crate::rules::varint::whole;

pub const NORMAL: u64 = 1;
pub const COLUMNS_ONLY: u64 = 2;
pub const FIRST_COLUMN_MISSING: u64 = 3;

pub struct Carved {
    pub at: usize,
    pub mode: u64,
    pub confidence: f32,
    pub consumed: usize,
    pub entries: Vec<u64>,
    pub padded: bool,
}

/// Rows with their headers while there are any; where there is none at all, those of the other modes.
pub fn rows(limits: &Limits, block: &[u8], columns: usize) -> Vec<Carved> {
    let mut rows = Vec::new();
    let mut at = 0;
    while at + limits.least_normal <= block.len() {
        let Some(row) = normal(limits, block, at, columns) else {
            break;
        };
        at += row.consumed;
        rows.push(row);
    }
    if rows.is_empty() {
        rows.extend(bare(limits, block, COLUMNS_ONLY, 0, columns));
        rows.extend(bare(limits, block, FIRST_COLUMN_MISSING, limits.lost, columns - 1));
    }
    rows
}

fn normal(limits: &Limits, block: &[u8], at: usize, columns: usize) -> Option<Carved> {
    let part = &block[at..];
    let own = whole(limits, part, 0)?;
    let header = own.value;
    if header < own.width as u64 || header > part.len() as u64 {
        return None;
    }
    let mut types = types(limits, part, own.width, header, columns).ok()?;
    types.padded = (limits.marks.header)(own.padded, types.padded);
    let (entries, end) = bodies(block, at + header as usize, &types.kinds);
    row(limits, NORMAL, at, &types, entries, end)
}

/// Types without a header length, from a place on, and bodies behind the last of them.
fn bare(limits: &Limits, block: &[u8], mode: u64, from: usize, most: usize) -> Option<Carved> {
    let types = types(limits, block, from, block.len() as u64, most).ok()?;
    let (mut entries, end) = bodies(block, types.end, &types.kinds);
    if mode == FIRST_COLUMN_MISSING {
        entries.splice(0..0, [2, 0, 0, 0]);
    }
    row(limits, mode, 0, &types, entries, end)
}

/// A row needs a type at least.
fn row(limits: &Limits, mode: u64, at: usize, types: &Types, entries: Vec<u64>, end: usize) -> Option<Carved> {
    let (confidence, padded) = (limits.modes[mode as usize - 1], types.padded);
    (!types.kinds.is_empty()).then_some(Carved { at, mode, confidence, consumed: end - at, entries, padded })
}

/// The entries of bodies one behind the other, and where the last ends. One that does not fit moves nothing.
fn bodies(block: &[u8], first: usize, kinds: &[u64]) -> (Vec<u64>, usize) {
    let mut entries = Vec::new();
    let mut at = first;
    for &kind in kinds {
        match decode(kind, block, at as u64) {
            Some(value) => {
                entries.extend([0, kind, at as u64, value.length]);
                at += value.length as usize;
            }
            None => entries.extend([1, kind, 0, 0]),
        }
    }
    (entries, at)
}
