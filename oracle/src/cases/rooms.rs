//! Every room from none to one more than is needed, going on after refusal 9, and starts of all kinds.

use super::records::{hints, region};
use super::regions::lists;
use crate::calls::{ATTEMPT, SCAN};
use crate::case::Case;
use crate::random::Random;
use crate::rules::attempt;
use crate::rules::limits::{Limits, WORDS_PER_ROW};
use crate::runner::Sink;

pub fn all(sink: &mut dyn Sink, random: &mut Random, count: usize) {
    let mut made = 0;
    while made < count.max(4000) {
        let hints = hints(random);
        let region = region(random, &hints, 1 + (made % 5));
        made += rooms(sink, &region, &hints) + resumed(sink, &region, &hints);
        made += starts(sink, &region, &hints);
    }
}

fn put(sink: &mut dyn Sink, region: &[u8], hints: &[u8], start: u64, lists: [usize; 2]) {
    sink.put(Case::new(SCAN, &[1 << 20, start], &[region, hints], &lists));
}

fn rows_in(region: &[u8], hints: &[u8]) -> usize {
    attempt::scan(&Limits::of_the_rules(), region, hints, 0, usize::MAX).rows.len()
}

/// Both lists short, and each of them by itself; ends that are one cell short of a row, and one beyond it.
fn rooms(sink: &mut dyn Sink, region: &[u8], hints: &[u8]) -> usize {
    let rows = rows_in(region, hints);
    for room in 0..=rows + 1 {
        let [r, c] = lists(room, hints.len());
        let [most_r, most_c] = lists(rows + 1, hints.len());
        put(sink, region, hints, 0, [r, c]);
        put(sink, region, hints, 0, [r, most_c]);
        put(sink, region, hints, 0, [most_r, c]);
        put(sink, region, hints, 0, [r + WORDS_PER_ROW - 1, c]);
        put(sink, region, hints, 0, [r, c + 4 * hints.len() - 1]);
        if room > 0 {
            put(sink, region, hints, 0, [r - 1, c]);
            put(sink, region, hints, 0, [r, c - 1]);
        }
        sink.put(Case::new(ATTEMPT, &[7, 0], &[region, hints], &[r, c]));
    }
    8 * (rows + 2)
}

/// The scan in parts, each from the place where the one before found no room.
fn resumed(sink: &mut dyn Sink, region: &[u8], hints: &[u8]) -> usize {
    let mut made = 0;
    for room in 1..=3 {
        let mut start = 0;
        loop {
            put(sink, region, hints, start as u64, lists(room, hints.len()));
            made += 1;
            let part = attempt::scan(&Limits::of_the_rules(), region, hints, start, room);
            if !part.full {
                break;
            }
            start = part.place;
        }
    }
    made
}

fn starts(sink: &mut dyn Sink, region: &[u8], hints: &[u8]) -> usize {
    let end = region.len() as u64;
    let room = lists(3, hints.len());
    let far = [end + 1, end + 2, 1 << 32, 1 << 63, u64::MAX - 1, u64::MAX];
    let near = (0..=end).step_by(1 + region.len() / 16);
    for start in near.chain(end.saturating_sub(4)..=end).chain(far) {
        put(sink, region, hints, start, room);
        sink.put(Case::new(ATTEMPT, &[7, start], &[region, hints], &room));
    }
    50
}
