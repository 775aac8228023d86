//! Bytes of the kinds that are measured. Each is fixed by its kind and length.

use crate::random::Random;

const SEED: u64 = 20_261_115;

/// What a tablet's pages may hold, and what a scan may find hardest.
#[derive(Clone, Copy)]
pub enum Kind {
    Text,
    Blanks,
    Low,
    Random,
    High,
    Zeros,
    Mixed,
    Readings,
    Headers,
    Run,
}

pub const KINDS: [(&str, Kind); 10] = [
    ("text", Kind::Text),
    ("blanks", Kind::Blanks),
    ("low", Kind::Low),
    ("random", Kind::Random),
    ("high", Kind::High),
    ("zeros", Kind::Zeros),
    ("mixed", Kind::Mixed),
    ("readings", Kind::Readings),
    ("headers", Kind::Headers),
    ("run", Kind::Run),
];

/// Five columns; a reading has one less.
pub const HINTS: [u8; 5] = [0, 1, 0, 2, 2];
pub const READING_HINTS: [u8; 4] = [0, 1, 0, 2];

/// Plot, depth, moisture, note: the types, and the bodies behind them.
pub const READING_TYPES: [u8; 4] = [2, 7, 1, 53];

pub fn bodies() -> Vec<u8> {
    [&[1, 44][..], &[64, 9, 33, 251, 84, 68, 45, 24], &[61], b"clay below, wet here"].concat()
}

/// A whole record.
pub fn reading() -> Vec<u8> {
    [&[5][..], &READING_TYPES, &bodies()].concat()
}

pub fn hints(kind: Kind) -> &'static [u8] {
    match kind {
        Kind::Readings => &READING_HINTS,
        _ => &HINTS,
    }
}

fn repeated(bytes: &[u8], length: usize) -> Vec<u8> {
    bytes.iter().copied().cycle().take(length).collect()
}

pub fn bytes(kind: Kind, length: usize) -> Vec<u8> {
    let random = &mut Random::new(SEED);
    match kind {
        Kind::Zeros => vec![0; length],
        // One run, and each byte of it may begin a header's length.
        Kind::Run => vec![128; length],
        Kind::Readings => repeated(&reading(), length),
        // A header of 512 bytes at every second offset.
        Kind::Headers => repeated(&[0x84, 0], length),
        _ => (0..length).map(|i| byte(kind, i, random)).collect(),
    }
}

fn byte(kind: Kind, i: usize, random: &mut Random) -> u8 {
    match kind {
        Kind::Blanks if random.once_in(6) => b' ',
        Kind::Text | Kind::Blanks => b'a' + random.below(26) as u8,
        Kind::Low => 2 + random.below(19) as u8,
        // 64 times the byte 64, then 64 high ones, over and over.
        Kind::Mixed if i % 128 < 64 => 64,
        Kind::High | Kind::Mixed => 128 + random.below(128) as u8,
        _ => random.next() as u8,
    }
}

/// A statement of so many columns, with a remark in each that makes it as long as it should be.
pub fn statement(columns: usize, length: usize) -> Vec<u8> {
    const TYPES: [&str; 4] = ["TEXT", "REAL", "INTEGER", "VARCHAR"];
    let head = "CREATE TABLE readings(";
    let plain: Vec<String> = (0..columns).map(|i| format!("column_{i} {} NOT NULL", TYPES[i % 4])).collect();
    let used = head.len() + plain.iter().map(|c| c.len() + 1).sum::<usize>();
    let remark = " x".repeat(length.saturating_sub(used) / columns / 2);
    let columns: Vec<String> = plain.into_iter().map(|c| c + &remark).collect();
    format!("{head}{})", columns.join(",")).into_bytes()
}
