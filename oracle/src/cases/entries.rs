//! Column entries, read and viewed: good ones, and each word off by one.

use crate::calls::{READ_ENTRY, VIEW_ENTRY};
use crate::case::Case;
use crate::random::Random;
use crate::rules::value::body_length;
use crate::runner::Sink;

fn put(sink: &mut dyn Sink, entry: [u64; 4], bytes: &[u8]) {
    for call in [READ_ENTRY, VIEW_ENTRY] {
        sink.put(Case::new(call, &entry, &[bytes], &[]));
    }
}

pub fn all(sink: &mut dyn Sink, random: &mut Random, count: usize) {
    let bytes: Vec<u8> = (0..14).map(|i| [0x80, 0x41, 0xFF, 0x7F][i % 4]).collect();
    for kind in 0..=26 {
        for end in 0..=bytes.len() {
            small(sink, kind, &bytes[..end]);
        }
    }
    states(sink, &bytes);
    extremes(sink, &bytes);
    for _ in 0..count / 2 {
        random_entry(sink, random);
    }
}

/// In state 0: every start with the type's length, and that length off by one.
fn small(sink: &mut dyn Sink, kind: u64, bytes: &[u8]) {
    let length = body_length(kind).unwrap_or(0);
    for start in 0..=bytes.len() as u64 + 1 {
        put(sink, [0, kind, start, length], bytes);
    }
    for wrong in [length + 1, length.wrapping_sub(1)] {
        put(sink, [0, kind, 0, wrong], bytes);
    }
}

/// In the other states no word behind the state counts.
fn states(sink: &mut dyn Sink, bytes: &[u8]) {
    for state in [1, 2, 3, 4, 5, 255, 256, 1 << 32, u64::MAX] {
        for kind in [0, 1, 7, 10, 12, 13, 17, u64::MAX] {
            for (start, length) in [(0, 0), (0, 2), (3, 1), (99, 7), (u64::MAX, u64::MAX)] {
                put(sink, [state, kind, start, length], bytes);
                put(sink, [state, kind, start, length], &[]);
            }
        }
    }
}

fn extremes(sink: &mut dyn Sink, bytes: &[u8]) {
    let ends = [0, 1, 14, 15, 1 << 32, 1 << 63, u64::MAX - 1, u64::MAX];
    for kind in [0, 1, 2, 6, 7, 8, 9, 10, 11, 12, 13, 14, 40, 41, 1 << 63, u64::MAX - 1, u64::MAX] {
        let own = body_length(kind).unwrap_or(0);
        for start in ends {
            for length in ends.into_iter().chain([own]) {
                put(sink, [0, kind, start, length], bytes);
            }
        }
    }
}

fn random_entry(sink: &mut dyn Sink, random: &mut Random) {
    let size = random.below(40);
    let bytes = random.bytes(size);
    let kind = if random.once_in(10) { random.any_width() } else { random.below(60) as u64 };
    let own = body_length(kind).unwrap_or(0);
    let length = if random.once_in(8) { random.any_width() } else { own };
    // Mostly so that the body fits, or fails to by one.
    let spare = size.saturating_sub(own as usize);
    let start = if random.once_in(20) { random.any_width() } else { random.below(spare + 2) as u64 };
    let state = if random.once_in(6) { random.below(6) as u64 } else { 0 };
    put(sink, [state, kind, start, length], &bytes);
}
