//! Every way in which an attempt ends, with the count of what it read; the words of entries; offsets and starts; lists
//! that are just full, a cell short, and longer.

use crate::calls::{ATTEMPT, SCAN};
use crate::case::Case;
use crate::cases::blocks::block;
use crate::cases::regions::{attempt, lists, scan};
use crate::rules::limits::{WORDS_PER_ENTRY, WORDS_PER_ROW};
use crate::runner::Sink;

/// An Integer and a Text, and a row of both.
const HINTS: [u8; 2] = [0, 2];
const ROW: [u8; 9] = [3, 1, 0x17, 0x2A, 0x68, 0x69, 0x70, 0x69, 0x6B];

pub fn all(sink: &mut dyn Sink) {
    failures(sink);
    ends(sink);
    suiting(sink);
    every_type(sink);
    past_the_header(sink);
    soon_seen(sink);
    offsets(sink);
    starts(sink);
    rooms(sink);
}

/// Headers that make no row, with a row behind each, so that the count and the next offset show.
fn failures(sink: &mut dyn Sink) {
    let headers: [&[u8]; 15] = [
        // The length is below 2, in one byte and in more,
        &[0],
        &[1],
        &[0x80, 0],
        &[0x80, 0x80, 1],
        // above 512, or past the region.
        &[0x84, 1],
        &[0xFF, 0xFF, 0xFF, 0xFF, 0xFF, 0xFF, 0xFF, 0xFF, 0xFF],
        &[0x20],
        &[0x82, 0],
        // There is a type too few, in one byte and in two, or too many.
        &[2, 1, 0x2A],
        &[3, 0x80, 1, 0x2A],
        &[4, 1, 0x0F, 8, 0x2A, 0x2A],
        // No type suits.
        &[3, 0x0F, 1, 0x2A, 0x2A],
        // A type is reserved, and all others suit.
        &[3, 1, 10, 0x2A],
        &[3, 1, 11, 0x2A],
        &[3, 10, 0x0F, 0x2A],
    ];
    for header in headers {
        let region = [header, &ROW].concat();
        scan(sink, &region, &HINTS, 2);
        attempt(sink, &region, &HINTS, 0);
    }
}

/// What the region's end cuts off, and what it just leaves.
fn ends(sink: &mut dyn Sink) {
    for region in [
        // The length itself, and a type.
        &[0x81, 0x81, 0x81, 0x81, 0x81][..],
        &[3, 1, 0x81, 0x81],
        &[3, 0x81, 0x81, 0x81],
        // The header, a byte of it, and nothing.
        &[4, 8, 0x0D],
        &[3, 8, 0x0D],
        &[3, 8, 0x0D, 0],
        // The last body, a byte of it, and nothing.
        &ROW[..3],
        &ROW[..4],
        &ROW[..8],
        &ROW,
    ] {
        scan(sink, region, &HINTS, 2);
        attempt(sink, region, &HINTS, 0);
    }
    // The longest body of all.
    let longest = [&[10, 0xFF, 0xFF, 0xFF, 0xFF, 0xFF, 0xFF, 0xFF, 0xFF, 0xFF][..], &ROW].concat();
    scan(sink, &longest, &[2], 2);
}

/// Of three columns none suits, one, two, all; each hint in each place.
fn suiting(sink: &mut dyn Sink) {
    let region = [4, 1, 0x0F, 0x0E, 0x2A, 0x2A, 0x2A, 0, 0, 0];
    for hint in 0..6 {
        for hints in [[hint, 4, 4], [4, hint, 4], [4, 4, hint], [0, hint, hint], [hint, 2, 3]] {
            scan(sink, &region, &hints, 2);
        }
    }
}

/// A column of every length, so that no word of an entry is that of another.
fn every_type(sink: &mut dyn Sink) {
    let types = [13, 1, 2, 3, 4, 5, 6, 7, 8, 9, 0x10, 0x13, 0];
    let record = [&types[..], &[0x2A; 37]].concat();
    let hints = [0, 0, 0, 0, 0, 0, 1, 0, 0, 3, 2, 4];
    for region in [record.clone(), [&record[..], &record, &record].concat()] {
        scan(sink, &region, &hints, 3);
        attempt(sink, &region, &hints, 0);
    }
}

/// The last type ends behind the header, and the first body starts in it.
fn past_the_header(sink: &mut dyn Sink) {
    let region = [3, 1, 0x80, 0x0F, 0x2A, 0x61, 0];
    scan(sink, &region, &HINTS, 2);
    attempt(sink, &region, &HINTS, 0);
}

/// Where a header shows soon that it makes no row, or only seems to; the count tells how far it was read.
fn soon_seen(sink: &mut dyn Sink) {
    let ones = |n: usize| vec![1; n];
    let high = |n: usize| vec![0xFF; n];
    for region in [
        // Too many types, and the last byte ends none, or ends one.
        [&[12][..], &ones(10), &[0x80, 0, 0, 0]].concat(),
        [&[12][..], &ones(11), &[0, 0, 0]].concat(),
        // It ends in a run of bytes from 128 up, which begins with a 128.
        [&[40][..], &ones(19), &[0x80], &high(40), &[0; 4]].concat(),
        // The longest header.
        [&[0x84, 0][..], &ones(510), &[0; 4]].concat(),
        // A type of nine bytes, and a type of two that is one too few.
        [&[10][..], &[0x80; 8], &[1, 7, 0, 0]].concat(),
        [&[3, 0x81, 0][..], &ones(58), &[0; 2]].concat(),
        // As many types of one byte as columns, and one more.
        [&[2, 1, 7][..], &[3, 1, 1, 7, 7], &[0; 2]].concat(),
    ] {
        for hints in [&[0][..], &[3, 3], &[5]] {
            scan(sink, &region, hints, 3);
            // Behind an offset that is passed over.
            scan(sink, &[&[0][..], &region].concat(), hints, 3);
        }
    }
    // A type of 127 in a header whose length is lost.
    block(sink, &[&[127, 1][..], &ones(58), &[0; 3]].concat(), &[2, 0], 40);
}

/// One attempt at each offset, up to the region's end and behind it, with a base; in the last two bytes stands a row that
/// no scan tries.
fn offsets(sink: &mut dyn Sink) {
    let two = [&[5][..], &ROW, &[2, 0]].concat();
    let one = [2, 1, 7, 2, 8];
    for (region, hints) in [(&two[..], &HINTS[..]), (&one, &[0])] {
        for offset in (0..=region.len() as u64 + 1).chain([1 << 32, u64::MAX]) {
            sink.put(Case::new(ATTEMPT, &[1000, offset], &[region, hints], &lists(1, hints.len())));
        }
    }
}

fn starts(sink: &mut dyn Sink) {
    let region = [&[5][..], &ROW, &ROW, &[7, 7]].concat();
    for start in (0..=region.len() as u64 + 1).chain([1 << 32, u64::MAX]) {
        sink.put(Case::new(SCAN, &[1000, start], &[&region, &HINTS], &lists(3, 2)));
    }
}

/// Three rows, and lists that take as many, that are a cell or a row short, and longer.
fn rooms(sink: &mut dyn Sink) {
    let region = [ROW; 3].concat();
    let (row, group) = (WORDS_PER_ROW, WORDS_PER_ENTRY * HINTS.len());
    let sizes = |one: usize| [0, one - 1, one, 2 * one, 3 * one - 1, 3 * one, 3 * one + 1];
    for (r, c) in sizes(row).into_iter().zip(sizes(group)) {
        for room in [[r, 4 * group], [4 * row, c], [r, c]] {
            sink.put(Case::new(SCAN, &[0, 0], &[&region, &HINTS], &room));
        }
    }
    // One attempt, where there is a row and where none asks for room.
    for room in [[0, 0], [row - 1, group], [row, group - 1], [row, group]] {
        for offset in [0, 1] {
            sink.put(Case::new(ATTEMPT, &[0, offset], &[&region, &HINTS], &room));
        }
    }
}
