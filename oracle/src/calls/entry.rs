//! Column entries. The Rust has none; a good entry's value is held against what the Rust decodes at its start.

use super::value::same_value;
use super::{held, Given};
use crate::case::{Answer, Case};
use crate::rules::limits::Limits;
use crate::rules::value::{read_entry, Value, BLOB, TEXT};
use given::record::decode_serial_type;

fn entry(case: &Case) -> [u64; 4] {
    [case.numbers[0], case.numbers[1], case.numbers[2], case.numbers[3]]
}

fn has_bytes(value: &Value) -> bool {
    value.tag == TEXT || value.tag == BLOB
}

pub fn read(_: &Limits, case: &Case) -> Answer {
    let Some(v) = read_entry(entry(case), &case.slices[0]) else {
        return Answer::refused(2, 4, 0);
    };
    let length = if has_bytes(&v) { v.length } else { 0 };
    Answer::new(0, vec![v.tag, v.bits, v.start, length], Vec::new())
}

/// What the Rust decodes where a good entry with a body points.
fn decoded(case: &Case) -> Option<(given::record::SqlValue, usize)> {
    let [state, kind, start, length] = entry(case);
    let bytes = &case.slices[0];
    let inside = start.checked_add(length).is_some_and(|end| end <= bytes.len() as u64);
    if state != 0 || !inside {
        return None;
    }
    decode_serial_type(kind, bytes, start as usize)
}

pub fn given_read(case: &Case, answer: &Answer) -> Given {
    let Some((rust, taken)) = decoded(case) else {
        return Given::NotAsked;
    };
    let good = taken as u64 == case.numbers[3];
    if !good || answer.number != 0 {
        return held("a good entry", good, answer.number == 0);
    }
    let [tag, bits, start, length] = answer.out[..] else {
        return Given::Differs("four words".into());
    };
    let value = Value { tag, bits, start, length };
    same_value(&rust, &value, &case.slices[0])
}

/// A bad entry is no refusal here: its view is empty.
pub fn view(_: &Limits, case: &Case) -> Answer {
    let value = read_entry(entry(case), &case.slices[0]);
    let seen = value.filter(|v| has_bytes(v) && v.length > 0);
    Answer::new(0, seen.map_or(vec![0, 0], |v| vec![v.start, v.length]), Vec::new())
}

pub fn given_view(case: &Case, answer: &Answer) -> Given {
    use given::record::SqlValue::{Blob, Text};
    let Some((rust, taken)) = decoded(case) else {
        return Given::NotAsked;
    };
    if taken as u64 != case.numbers[3] {
        return held("view of a bad entry", &[0, 0][..], &answer.out);
    }
    let (start, length) = (answer.out[0] as usize, answer.out[1] as usize);
    let seen = &case.slices[0][start..start + length];
    match rust {
        Text(t) => held("view of a text", t.as_str(), &String::from_utf8_lossy(seen)),
        Blob(b) => held("view of a blob", &b[..], seen),
        _ => held("view of another value", 0, length),
    }
}
