//! Rows to learn types from: integers of every width, every short list of entries, ties, bad entries in every place, and
//! as many rows as there may be.

use super::bytes::every;
use super::records::most_columns;
use crate::calls::LEARN;
use crate::case::Case;
use crate::random::Random;
use crate::rules::value::body_length;
use crate::runner::Sink;

pub fn all(sink: &mut dyn Sink, random: &mut Random, count: usize) {
    integers(sink);
    lengths(sink);
    commonest(sink);
    states(sink);
    bad_words(sink);
    rests(sink);
    ragged(sink);
    many(sink);
    wide(sink);
    refusals(sink, &[7; 8]);
    for i in 0..count {
        match i % 64 {
            0 => rooms(sink, random),
            _ => random_case(sink, random),
        }
    }
}

/// Entries, and the bytes of their bodies.
#[derive(Clone, Default)]
struct Rows {
    bytes: Vec<u8>,
    entries: Vec<u64>,
}

impl Rows {
    fn body(&mut self, kind: u64, body: &[u8]) {
        self.entries.extend([0, kind, self.bytes.len() as u64, body.len() as u64]);
        self.bytes.extend(body);
    }

    fn state(&mut self, state: u64) {
        self.entries.extend([state, 0, 0, 0]);
    }

    fn put(&self, sink: &mut dyn Sink, width: u64, room: usize) {
        put(sink, &self.bytes, width, &self.entries, room);
    }
}

fn put(sink: &mut dyn Sink, bytes: &[u8], width: u64, entries: &[u64], room: usize) {
    sink.put(Case::new(LEARN, &[width], &[bytes], &[room]).with_words(&[entries]));
}

/// Integers at each end of each width, in every type that holds them; each alone and against two others.
pub fn integers(sink: &mut dyn Sink) {
    let mut values: Vec<i64> = vec![0, 1, 2, -1, -2, i64::MIN, i64::MAX];
    for bits in [7, 8, 15, 16, 23, 24, 31, 32, 39, 40, 47, 48, 55, 56] {
        let power = 1i64 << bits;
        values.extend([power - 1, power, power + 1, -power - 1, -power, -power + 1]);
    }
    for value in values {
        for (kind, width) in [(1, 1), (2, 2), (3, 3), (4, 4), (5, 6), (6, 8)] {
            let unused = 64 - 8 * width;
            if (value << unused) >> unused != value {
                continue;
            }
            let body = &value.to_be_bytes()[8 - width..];
            let mut rows = Rows::default();
            rows.body(kind, body);
            rows.put(sink, 1, 1);
            rows.body(9, &[]);
            rows.body(kind, body);
            rows.put(sink, 1, 1);
            rows.put(sink, 3, 3);
        }
    }
    for kind in [0, 8, 9] {
        let mut rows = Rows::default();
        rows.body(kind, &[]);
        rows.put(sink, 1, 1);
    }
}

/// Texts, blobs and reals of all lengths, of the largest too.
fn lengths(sink: &mut dyn Sink) {
    for length in (0..=70).chain([127, 128, 255, 256, 1000, 65_536, 100_000]) {
        for last in 0..2 {
            let mut rows = Rows::default();
            rows.body(12 + 2 * length + last, &vec![b'a'; length as usize]);
            rows.put(sink, 1, 1);
            rows.body(7, &[0x40, 9, 0x21, 0xFB, 0x54, 0x44, 0x2D, 0x18]);
            rows.put(sink, 2, 2);
            rows.put(sink, 1, 1);
        }
    }
    for text in ["é", "ß€", "😀", "\u{FFFD}", "a\u{0}"] {
        let mut rows = Rows::default();
        rows.body(13 + 2 * text.len() as u64, text.as_bytes());
        rows.put(sink, 1, 1);
        rows.bytes[0] = 0xFF;
        rows.put(sink, 1, 1);
    }
    for pattern in [0, 1, 1 << 63, 0x7FF8_0000_0000_0001, u64::MAX] {
        let mut rows = Rows::default();
        rows.body(7, &u64::to_be_bytes(pattern));
        rows.put(sink, 1, 1);
    }
}

/// Bodies of a few types, at fixed places of these bytes.
const BYTES: [u8; 12] = [5, 1, 44, b'a', b'b', 0x40, 0, 0, 0, 0, 0, 0];
const ENTRIES: [[u64; 4]; 8] =
    [[0, 0, 0, 0], [0, 8, 0, 0], [0, 1, 0, 1], [0, 2, 1, 2], [0, 15, 3, 1], [0, 17, 3, 2], [0, 14, 3, 1], [0, 7, 4, 8]];

/// Every list of up to six rows of a few values, with and without ties.
pub fn commonest(sink: &mut dyn Sink) {
    every(&[0, 1, 2, 3, 4], 6, |which| {
        let entries: Vec<u64> = which.iter().flat_map(|&i| ENTRIES[usize::from(i)]).collect();
        put(sink, &BYTES, 1, &entries, 1);
    });
    every(&[0, 1, 2, 3, 4, 5, 6, 7], 4, |which| {
        let entries: Vec<u64> = which.iter().rev().flat_map(|&i| ENTRIES[usize::from(i)]).collect();
        put(sink, &BYTES, 1, &entries, 2);
        put(sink, &BYTES, 2, &entries, 2);
    });
}

/// Every short list of entries in all states, some of them bad, in groups of every width.
pub fn states(sink: &mut dyn Sink) {
    let entries: [[u64; 4]; 9] = [
        [0, 1, 0, 1],
        [0, 17, 3, 2],
        [1, 10, 9, 9],
        [2, 0, 0, 0],
        [3, 0, 0, 0],
        [4, 0, 0, 0],
        [0, 1, 0, 2],
        [0, 10, 0, 0],
        [0, 1, 12, 1],
    ];
    every(&[0, 1, 2, 3, 4, 5, 6, 7, 8], 4, |which| {
        let entries: Vec<u64> = which.iter().flat_map(|&i| entries[usize::from(i)]).collect();
        for width in 1..=4 {
            put(sink, &BYTES, width, &entries, 4);
        }
    });
}

/// Every row of up to three entries, each used or not; a used one behind one that is not is bad.
pub fn unused(sink: &mut dyn Sink) {
    every(&[2, 3], 3, |states| {
        let entries: Vec<u64> = states.iter().flat_map(|&state| [u64::from(state), 0, 0, 0]).collect();
        put(sink, &BYTES, states.len() as u64, &entries, 3);
    });
}

/// Each word of an entry off by a little and by much, in the first and in the last row.
fn bad_words(sink: &mut dyn Sink) {
    let good: Vec<u64> = ENTRIES.concat();
    for at in 0..good.len() {
        for value in [0, 1, 2, 3, 4, 5, 10, 11, 12, 13, 255, 1 << 32, 1 << 63, u64::MAX - 1, u64::MAX] {
            let mut entries = good.clone();
            entries[at] = value;
            for width in [1, 2, 4, 8] {
                put(sink, &BYTES, width, &entries, 8);
            }
        }
        for length in 0..BYTES.len() {
            put(sink, &BYTES[..length], 2, &good[..at], 2);
        }
    }
}

/// Words behind the last whole group, which are not read, bad as they may be.
fn rests(sink: &mut dyn Sink) {
    for width in [1, 2, 3, 126, 510] {
        for rows in 0..=2 {
            for rest in (0..4 * width).step_by(1 + width / 127) {
                let mut entries: Vec<u64> = [0, 1, 0, 1].repeat(width * rows);
                entries.extend(vec![u64::MAX; rest]);
                put(sink, &BYTES, width as u64, &entries, width);
            }
        }
    }
}

/// Rows of unlike lengths: as many types are learned as the longest has.
fn ragged(sink: &mut dyn Sink) {
    every(&[0, 1, 2, 3], 4, |used| {
        let mut rows = Rows { bytes: BYTES.to_vec(), entries: Vec::new() };
        for (i, &used) in used.iter().enumerate() {
            (0..used).for_each(|_| rows.entries.extend(ENTRIES[i + 2]));
            (used..3).for_each(|_| rows.state(3));
        }
        for room in 0..=3 {
            rows.put(sink, 3, room);
        }
    });
}

/// As many rows as may be learned from, and one more; a bad one among them.
pub fn many(sink: &mut dyn Sink) {
    for rows in [1023, 1024, 1025, 1026, 2048] {
        for width in [1, 2] {
            let mut entries: Vec<u64> = ENTRIES[2].repeat(width * rows);
            put(sink, &BYTES, width as u64, &entries, width);
            put(sink, &BYTES, width as u64, &entries, 0);
            entries.extend(vec![9; 4 * width - 1]);
            put(sink, &BYTES, width as u64, &entries, width);
            // The last row decides.
            let half = entries.len() / 8 * 4;
            for entry in entries[..half].chunks_exact_mut(4) {
                entry.copy_from_slice(&ENTRIES[4]);
            }
            put(sink, &BYTES, width as u64, &entries, width);
            entries[4 * rows - 4] = 4;
            put(sink, &BYTES, width as u64, &entries, width);
        }
    }
}

fn wide(sink: &mut dyn Sink) {
    for width in [1, 2, 63, 64, 125, 126, 127, 128, 509, 510, 511, 512] {
        for rows in 0..=3 {
            let entries: Vec<u64> = (0..width * rows).flat_map(|i| ENTRIES[i % 5]).collect();
            for room in [0, 1, width - 1, width, width + 1] {
                put(sink, &BYTES, width as u64, &entries, room);
            }
        }
    }
}

/// Every set of refusals that can hold at once; large.rs adds bytes of the largest size.
pub fn refusals(sink: &mut dyn Sink, bytes: &[u8]) {
    for width in [0, 1, 510, 511, 1 << 32, 1 << 62, 1 << 63, u64::MAX] {
        for rows in [0, 1, 1024, 1025] {
            for bad in [false, true] {
                let used = width.min(2) as usize;
                let mut entries: Vec<u64> = [0, 1, 0, 1].repeat(used.max(1) * rows);
                if let Some(state) = entries.first_mut().filter(|_| bad) {
                    *state = 4;
                }
                for room in [0, 2] {
                    put(sink, bytes, width, &entries, room);
                }
            }
        }
    }
}

/// A value of a kind, with a body that is text where it should be.
fn some_entry(random: &mut Random, rows: &mut Rows, kind: u64) {
    let length = body_length(kind).unwrap_or(0) as usize;
    let body: Vec<u8> = match kind {
        1..=6 if random.once_in(3) => {
            // A number of any width, in a type that may be wider.
            let value = random.any_width() as i64 >> random.below(60);
            value.to_be_bytes()[8 - length..].to_vec()
        }
        _ if kind >= 13 && kind % 2 == 1 && !random.once_in(200) => {
            (0..length).map(|_| b'a' + random.below(26) as u8).collect()
        }
        _ => random.bytes(length),
    };
    rows.body(kind, &body);
}

/// Rows of a table whose columns each have a type that comes more often than the others.
fn some_rows(random: &mut Random, width: usize) -> Rows {
    let mut rows = Rows::default();
    let kind = |random: &mut Random| random.pick(&[0, 1, 1, 2, 3, 4, 5, 6, 7, 8, 9, 13, 15, 21, 31, 12, 16, 24]);
    let usual: Vec<u64> = (0..width).map(|_| kind(random)).collect();
    let count = random.mostly_below(8, 20, 60);
    for _ in 0..count {
        let used = if random.once_in(6) { random.below(width + 1) } else { width };
        for column in &usual[..used] {
            match random.below(16) {
                0 => rows.state(1 + random.below(2) as u64),
                1..=4 => {
                    let other = kind(random);
                    some_entry(random, &mut rows, other);
                }
                _ => some_entry(random, &mut rows, *column),
            }
        }
        (used..width).for_each(|_| rows.state(3));
    }
    rows
}

fn width(random: &mut Random) -> usize {
    let most = most_columns(random);
    1 + random.mostly_below(4, 30, most)
}

fn random_case(sink: &mut dyn Sink, random: &mut Random) {
    let width = width(random);
    let mut rows = some_rows(random, width);
    if random.once_in(12) && !rows.entries.is_empty() {
        let at = random.below(rows.entries.len());
        rows.entries[at] = if random.once_in(2) { random.any_width() } else { random.below(5) as u64 };
    }
    if random.once_in(20) {
        rows.bytes.truncate(random.below(rows.bytes.len() + 1));
    }
    if random.once_in(6) {
        rows.entries.extend(vec![9; random.below(4 * width)]);
    }
    let room = if random.once_in(5) { random.below(width + 1) } else { width + random.below(3) };
    rows.put(sink, width as u64, room);
}

/// Every room from none to one more than is needed.
fn rooms(sink: &mut dyn Sink, random: &mut Random) {
    let width = width(random).min(20);
    let rows = some_rows(random, width);
    for room in 0..=width + 1 {
        rows.put(sink, width as u64, room);
    }
}
