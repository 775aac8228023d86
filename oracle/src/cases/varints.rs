//! Varints of all widths: least, padded, cut off, and runs of bytes that ask for more.

use super::bytes::{every, telling_numbers, varint, width, TELLING};
use crate::calls::READ_VARINT;
use crate::case::Case;
use crate::random::Random;
use crate::runner::Sink;

fn put(sink: &mut dyn Sink, bytes: &[u8], offset: u64) {
    sink.put(Case::new(READ_VARINT, &[offset], &[bytes], &[]));
}

pub fn all(sink: &mut dyn Sink, random: &mut Random, count: usize) {
    every(&TELLING, 3, |bytes| {
        for offset in 0..=bytes.len() as u64 + 1 {
            put(sink, bytes, offset);
        }
    });
    for value in telling_numbers() {
        for wide in width(value)..=9 {
            whole_and_cut(sink, &varint(value, wide));
        }
    }
    runs(sink);
    for _ in 0..count {
        random_bytes(sink, random);
    }
}

fn whole_and_cut(sink: &mut dyn Sink, bytes: &[u8]) {
    for end in 0..=bytes.len() {
        put(sink, &bytes[..end], 0);
    }
    let mut inside = vec![0xFF, 0x80, 0x00];
    inside.extend(bytes);
    inside.push(0x81);
    for offset in [0, 1, 3, 4, inside.len() as u64 - 1] {
        put(sink, &inside, offset);
    }
}

fn runs(sink: &mut dyn Sink) {
    for byte in [0x80, 0x81, 0xFE, 0xFF] {
        for length in 0..=20 {
            let mut bytes = vec![byte; length];
            put(sink, &bytes, 0);
            for last in TELLING {
                bytes.push(last);
                for offset in (0..=length as u64 + 2).chain([u64::MAX, 1 << 63, 1 << 32]) {
                    put(sink, &bytes, offset);
                }
                bytes.pop();
            }
        }
    }
}

fn random_bytes(sink: &mut dyn Sink, random: &mut Random) {
    let length = random.below(14);
    let mut bytes = random.bytes(length);
    if !random.once_in(4) {
        // Mostly bytes that ask for more, so that long ones come up.
        bytes.iter_mut().for_each(|b| *b |= if random.once_in(5) { 0 } else { 0x80 });
    }
    let offset = if random.once_in(20) { random.any_width() } else { random.below(length + 2) as u64 };
    put(sink, &bytes, offset);
}
