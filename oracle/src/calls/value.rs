//! Varints, bodies, values and hints.

use super::{held, Given};
use crate::case::{Answer, Case};
use crate::rules::attempt::suits;
use crate::rules::limits::Limits;
use crate::rules::value::{self, Value};
use crate::rules::varint::{read, Varint};
use given::record::{decode_serial_type, SqlValue};
use given::schema_sig::{ColumnTypeHint, SchemaSignature};
use given::varint::read_varint;

fn words(out: &[u64]) -> Answer {
    Answer::new(0, out.to_vec(), Vec::new())
}

pub fn varint(limits: &Limits, case: &Case) -> Answer {
    match read(limits, &case.slices[0], case.numbers[0] as usize) {
        Varint::Whole(n) => words(&[1, n.value, n.width as u64, u64::from(n.padded)]),
        Varint::Cut(_) => words(&[0; 4]),
    }
}

/// The Rust does not say whether it was padded.
pub fn given_varint(case: &Case, answer: &Answer) -> Given {
    let rust = read_varint(&case.slices[0], case.numbers[0] as usize);
    let rust = rust.map_or([0; 3], |(value, width)| [1, value, width as u64]);
    held("varint", &rust[..], &answer.out[..rust.len()])
}

pub fn body(_: &Limits, case: &Case) -> Answer {
    words(&value::body_length(case.numbers[0]).map_or([0, 0], |n| [1, n]))
}

/// Bodies up to this length are decoded to see how long the Rust takes them to be.
const LENT: usize = 4096;

/// The Rust has no such call: over a slice just long enough it decodes the type, over one byte less it does not.
pub fn given_body(case: &Case, answer: &Answer) -> Given {
    let (kind, length) = (case.numbers[0], answer.out[1] as usize);
    let lent = [0; LENT];
    if length > LENT {
        // No slice is so long that the body fits.
        return held("a body in a short slice", decode_serial_type(kind, &lent, 0), None);
    }
    let taken = decode_serial_type(kind, &lent[..length], 0).map(|v| v.1);
    let short = length.checked_sub(1).and_then(|n| decode_serial_type(kind, &lent[..n], 0));
    super::all([
        held("body length", taken, (answer.out[0] == 1).then_some(length)),
        held("a body in a slice too short", short, None),
    ])
}

pub fn decode(_: &Limits, case: &Case) -> Answer {
    let value = value::decode(case.numbers[0], &case.slices[0], case.numbers[1]);
    let v = value.unwrap_or_default();
    words(&[v.tag, v.bits, v.start, v.length])
}

pub fn given_decode(case: &Case, answer: &Answer) -> Given {
    let rust = decode_serial_type(case.numbers[0], &case.slices[0], case.numbers[1] as usize);
    let [tag, bits, start, length] = answer.out[..] else {
        return Given::Differs("four words".into());
    };
    let value = Value { tag, bits, start, length };
    match rust {
        None => held("no value", 0, tag),
        Some((rust, taken)) => {
            super::all([same_value(&rust, &value, &case.slices[0]), held("bytes taken", taken as u64, length)])
        }
    }
}

/// Text is compared after the Rust's lossy step, a real by its bits.
pub fn same_value(rust: &SqlValue, value: &Value, bytes: &[u8]) -> Given {
    let part = || &bytes[value.start as usize..(value.start + value.length) as usize];
    match rust {
        SqlValue::Null => held("NULL", value::NULL, value.tag),
        SqlValue::Int(n) => held("integer", (value::INTEGER, *n as u64), (value.tag, value.bits)),
        SqlValue::Real(r) => held("real", (value::REAL, r.to_bits()), (value.tag, value.bits)),
        SqlValue::Text(_) if value.tag != value::TEXT => held("text", value::TEXT, value.tag),
        SqlValue::Text(t) => held("text", t.as_str(), &String::from_utf8_lossy(part())),
        SqlValue::Blob(_) if value.tag != value::BLOB => held("blob", value::BLOB, value.tag),
        SqlValue::Blob(b) => held("blob", &b[..], part()),
    }
}

pub fn hint_of(code: u8) -> Option<ColumnTypeHint> {
    Some(match code {
        0 => ColumnTypeHint::Integer,
        1 => ColumnTypeHint::Real,
        2 => ColumnTypeHint::Text,
        3 => ColumnTypeHint::Blob,
        4 => ColumnTypeHint::Null,
        5 => ColumnTypeHint::Any,
        _ => return None,
    })
}

pub fn compatible(limits: &Limits, case: &Case) -> Answer {
    let hint = case.numbers[0] as u8;
    if hint > limits.hint {
        return Answer::refused(2, 1, 0);
    }
    words(&[u64::from(suits(hint, case.numbers[1]))])
}

pub fn given_compatible(case: &Case, answer: &Answer) -> Given {
    let Some(hint) = hint_of(case.numbers[0] as u8) else {
        return Given::NotAsked;
    };
    let rust = SchemaSignature::is_compatible(&hint, case.numbers[1]);
    held("suits", (0, u64::from(rust)), (answer.number, answer.out[0]))
}
