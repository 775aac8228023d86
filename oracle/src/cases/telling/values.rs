//! Varints of every width, values of every type at their ends, hints with every kind of type, and entries in every state.

use crate::calls::{BODY_LENGTH, COMPATIBLE, DECODE, READ_ENTRY, READ_VARINT, VIEW_ENTRY};
use crate::case::Case;
use crate::cases::bytes::{varint, width};
use crate::rules::value::body_length;
use crate::runner::Sink;

pub fn all(sink: &mut dyn Sink) {
    varints(sink);
    lengths(sink);
    integers(sink);
    others(sink);
    hints(sink);
    entries(sink);
}

/// The smallest and the largest number of each width, whole, cut off, padded, and behind another byte.
fn varints(sink: &mut dyn Sink) {
    let mut put = |bytes: &[u8], offset| sink.put(Case::new(READ_VARINT, &[offset], &[bytes], &[]));
    for bits in [0, 7, 14, 21, 28, 35, 42, 49, 56, 64] {
        let largest = u64::MAX.checked_shr(64 - bits).unwrap_or(0);
        for value in [largest, largest.wrapping_add(1)] {
            let bytes = varint(value, width(value));
            put(&bytes, 0);
            put(&bytes[..bytes.len() - 1], 0);
            put(&[&[0x81], &bytes[..], &[0x81]].concat(), 1);
            put(&varint(value, 9), 0);
        }
    }
    for offset in [1, 2, u64::MAX] {
        put(&[5], offset);
    }
}

fn lengths(sink: &mut dyn Sink) {
    for kind in (0..20).chain([1000, 1001, u64::MAX - 1, u64::MAX]) {
        sink.put(Case::new(BODY_LENGTH, &[kind], &[], &[]));
    }
}

/// The ends of each width, and -2; behind another byte; and a byte too few.
fn integers(sink: &mut dyn Sink) {
    for kind in 1..=6 {
        let length = body_length(kind).unwrap_or(0) as usize;
        for (first, rest, last) in [(0x7F, 0xFF, 0xFF), (0x80, 0, 0), (0xFF, 0xFF, 0xFE), (0, 0, 1)] {
            let mut bytes = vec![rest; length];
            bytes[length - 1] = last;
            if length > 1 {
                bytes[0] = first;
            }
            decode(sink, kind, &bytes, 0);
            decode(sink, kind, &[&[0x2A], &bytes[..], &[0x2A]].concat(), 1);
            decode(sink, kind, &bytes[1..], 0);
        }
    }
}

fn decode(sink: &mut dyn Sink, kind: u64, bytes: &[u8], offset: u64) {
    sink.put(Case::new(DECODE, &[kind, offset], &[bytes], &[]));
}

/// Types that are no integers with a body, at and behind the slice's end too.
fn others(sink: &mut dyn Sink) {
    let bytes = [0x40, 0x09, 0x21, 0xFB, 0x54, 0x44, 0x2D, 0x18, 0x61];
    for kind in [0, 7, 8, 9, 10, 11, 12, 13, 14, 15, 28, 29, 30, 31] {
        for offset in [0, 1, 2, 9, 10] {
            decode(sink, kind, &bytes, offset);
        }
    }
    for real in [f64::INFINITY, f64::NEG_INFINITY] {
        decode(sink, 7, &real.to_be_bytes(), 0);
    }
}

fn hints(sink: &mut dyn Sink) {
    for hint in [0, 1, 2, 3, 4, 5, 6, 255] {
        for kind in 0..=15 {
            sink.put(Case::new(COMPATIBLE, &[hint, kind], &[], &[]));
        }
    }
}

/// Good entries; a length, a start or a type that is not; and states with and without a body.
fn entries(sink: &mut dyn Sink) {
    let bytes = [0x80, 0x61, 0x62, 0x63];
    let mut put = |entry: [u64; 4]| {
        for call in [READ_ENTRY, VIEW_ENTRY] {
            sink.put(Case::new(call, &entry, &[&bytes], &[]));
        }
    };
    for kind in [0, 1, 3, 8, 9, 10, 11, 12, 13, 14, 15, 18, 19] {
        let length = body_length(kind).unwrap_or(0);
        for start in [0, 1, 4 - length.min(4), 4, 5] {
            put([0, kind, start, length]);
        }
        for wrong in [length + 1, length.saturating_sub(1)] {
            put([0, kind, 1, wrong]);
        }
        for state in 1..=4 {
            put([state, kind, 1, length]);
        }
    }
}
