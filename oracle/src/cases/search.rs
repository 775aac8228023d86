//! The pattern search: every short haystack and pattern, overlaps, and rooms.

use super::bytes::every;
use crate::calls::SEARCH;
use crate::case::Case;
use crate::random::Random;
use crate::runner::Sink;

fn put(sink: &mut dyn Sink, haystack: &[u8], pattern: &[u8], room: usize) {
    sink.put(Case::new(SEARCH, &[], &[haystack, pattern], &[room]));
}

pub fn all(sink: &mut dyn Sink, random: &mut Random, count: usize) {
    every(b"ab", 8, |haystack| {
        every(b"ab", 3, |pattern| put(sink, haystack, pattern, 9));
    });
    every(b"abc", 4, |haystack| {
        every(b"abc", 2, |pattern| put(sink, haystack, pattern, 5));
    });
    rooms(sink);
    every_byte(sink);
    for _ in 0..count {
        random_search(sink, random);
    }
}

fn rooms(sink: &mut dyn Sink) {
    for length in 0..=12 {
        for pattern in 0..=length + 1 {
            for room in 0..=length + 2 {
                put(sink, &vec![b'a'; length], &vec![b'a'; pattern], room);
            }
        }
    }
}

/// Each entry of the skip table.
fn every_byte(sink: &mut dyn Sink) {
    for byte in 0..=255 {
        put(sink, &[1, byte, 2, byte, byte, 3], &[byte], 6);
        put(sink, &[9, 9, byte, 9, 9, byte, 9, 9, 9], &[9, byte, 9], 6);
        put(sink, &[byte, 0, byte, 1, byte, 0], &[byte, 0], 6);
    }
}

fn random_search(sink: &mut dyn Sink, random: &mut Random) {
    let symbols = random.pick(&[1, 2, 2, 3, 5, 256]);
    let length = random.mostly_below(60, 30, 800);
    let mut text = |n: usize| -> Vec<u8> { (0..n).map(|_| random.below(symbols) as u8).collect() };
    let haystack = text(length);
    let own = text(9);
    let at = random.below(length + 1);
    let end = (at + random.below(12)).min(length);
    // Mostly a part of the haystack, so that it is found.
    let pattern = if random.once_in(3) { &own[..random.below(9)] } else { &haystack[at..end] };
    let room = if random.once_in(3) { random.below(5) } else { length + 1 };
    put(sink, &haystack, pattern, room);
}
