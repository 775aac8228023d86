//! Bodies, values and hints.

use super::bytes::{every, telling_numbers, TELLING};
use crate::calls::{BODY_LENGTH, COMPATIBLE, DECODE};
use crate::case::Case;
use crate::random::Random;
use crate::rules::value::body_length;
use crate::runner::Sink;

pub fn all(sink: &mut dyn Sink, random: &mut Random, count: usize) {
    for kind in (0..4096).chain(telling_numbers()) {
        sink.put(Case::new(BODY_LENGTH, &[kind], &[], &[]));
    }
    hints(sink);
    short_slices(sink);
    lengths(sink);
    reals(sink);
    far_offsets(sink);
    for i in 0..count {
        match i % 10 {
            0 => sink.put(Case::new(BODY_LENGTH, &[random.any_width()], &[], &[])),
            1 => {
                let hint = random.below(7) as u64;
                sink.put(Case::new(COMPATIBLE, &[hint, random.any_width()], &[], &[]));
            }
            _ => random_value(sink, random),
        }
    }
}

/// Bodies whose end passes the last place of all make the Rust panic; those stand in the list of panics.
pub fn decode(sink: &mut dyn Sink, kind: u64, bytes: &[u8], offset: u64) {
    let length = body_length(kind).unwrap_or(0);
    if offset.checked_add(length).is_some() {
        sink.put(Case::new(DECODE, &[kind, offset], &[bytes], &[]));
    }
}

fn hints(sink: &mut dyn Sink) {
    let kinds: Vec<u64> = (0..40).chain(telling_numbers()).collect();
    for hint in 0..=255 {
        for kind in kinds.iter().take(if hint < 8 { kinds.len() } else { 16 }) {
            sink.put(Case::new(COMPATIBLE, &[hint, *kind], &[], &[]));
        }
    }
}

fn short_slices(sink: &mut dyn Sink) {
    every(&TELLING, 3, |bytes| {
        for kind in 0..=18 {
            decode(sink, kind, bytes, 0);
        }
    });
}

/// Every small type over every length around its own, at every offset.
fn lengths(sink: &mut dyn Sink) {
    let bytes: Vec<u8> = (0..24).map(|i| [0x80, 0x7F, 0xFF, 0x00, 0xC3, 0xA9][i % 6]).collect();
    for kind in 0..=40 {
        for end in 0..=bytes.len() {
            for offset in 0..=end as u64 + 2 {
                decode(sink, kind, &bytes[..end], offset);
            }
        }
    }
}

fn reals(sink: &mut dyn Sink) {
    let mut patterns = telling_numbers();
    for high in [0x7FF0, 0x7FF8, 0xFFF0, 0xFFF8, 0x8000, 0x0010, 0x3FF0] {
        patterns.extend([0, 1, 0xF_FFFF_FFFF].map(|low| (high << 48) | low));
    }
    for pattern in patterns {
        for kind in [6, 7] {
            decode(sink, kind, &pattern.to_be_bytes(), 0);
        }
    }
}

fn far_offsets(sink: &mut dyn Sink) {
    let kinds = (0..=20).chain(telling_numbers().into_iter().filter(|k| *k > 1 << 31));
    for kind in kinds {
        let last = u64::MAX - body_length(kind).unwrap_or(0);
        for offset in [0, 1, 1 << 32, 1 << 63, last - 1, last] {
            decode(sink, kind, &[1, 2, 3], offset);
        }
    }
}

fn random_value(sink: &mut dyn Sink, random: &mut Random) {
    let length = random.below(30);
    let bytes = if random.once_in(3) {
        "aé\u{10000}\u{FFFD}ß".repeat(3).into_bytes()[..length].to_vec()
    } else {
        random.bytes(length)
    };
    let kind = match random.below(8) {
        0 => random.any_width(),
        1..=3 => random.below(12) as u64,
        _ => random.below(70) as u64,
    };
    let offset = random.below(length + 3) as u64;
    decode(sink, kind, &bytes, offset);
}
