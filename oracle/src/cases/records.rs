//! Records to carve: whole ones, with padded varints, and damaged ones.

use super::bytes::{varint, width};
use crate::random::Random;
use crate::rules::value::body_length;

/// A header of types, each in so many bytes, with its own length before them in at least `wide` bytes.
pub fn header(types: &[(u64, usize)], wide: usize) -> Vec<u8> {
    let bytes: Vec<u8> = types.iter().flat_map(|&(kind, w)| varint(kind, w)).collect();
    let first = (wide..=9).find(|w| width((bytes.len() + w) as u64) <= *w).unwrap_or(9);
    let mut whole = varint((bytes.len() + first) as u64, first);
    whole.extend(bytes);
    whole
}

/// A type that suits a hint, or now and then any.
fn kind_for(random: &mut Random, hint: u8) -> u64 {
    let any = random.once_in(6);
    let small = random.mostly_below(12, 12, 200) as u64;
    match hint {
        _ if any => random.pick(&[0, 1, 2, 3, 4, 5, 6, 7, 8, 9, 10, 11, 12, 13, 25, 26]),
        0 => random.pick(&[0, 1, 1, 2, 3, 4, 5, 6, 8, 9]),
        1 => random.pick(&[0, 7, 7]),
        2 => 13 + 2 * small,
        3 => 12 + 2 * small,
        4 => 0,
        _ => random.pick(&[0, 1, 4, 7, 9, 12, 13, 20, 21]),
    }
}

/// The most columns of a table, mostly those of one whose header length takes a byte.
pub fn most_columns(random: &mut Random) -> usize {
    if random.once_in(3) {
        510
    } else {
        126
    }
}

pub fn hints(random: &mut Random) -> Vec<u8> {
    let most = match random.below(40) {
        0 => most_columns(random),
        1..=3 => 20,
        _ => 5,
    };
    let count = 1 + random.below(most);
    (0..count).map(|_| random.below(6) as u8).collect()
}

/// A record that suits the hints, as a rule.
pub fn record(random: &mut Random, hints: &[u8]) -> Vec<u8> {
    let padded = random.once_in(8);
    let types: Vec<(u64, usize)> = hints
        .iter()
        .map(|&hint| {
            let kind = kind_for(random, hint);
            let more = if padded { random.below(3) } else { 0 };
            (kind, (width(kind) + more).min(9))
        })
        .collect();
    let wide = if random.once_in(10) { 1 + random.below(9) } else { 1 };
    let mut bytes = header(&types, wide);
    for (kind, _) in types {
        let length = body_length(kind).unwrap_or(0) as usize;
        bytes.extend(random.bytes(length));
    }
    bytes
}

/// One small harm: a byte changed, lost or doubled, or the end cut off.
pub fn damage(random: &mut Random, bytes: &mut Vec<u8>) {
    if bytes.is_empty() {
        return;
    }
    let at = random.below(bytes.len());
    // Mostly in the header, where it counts.
    let at = if random.once_in(2) { at.min(random.below(8)) } else { at };
    match random.below(5) {
        0 => bytes[at] = random.next() as u8,
        1 => bytes[at] ^= 1 << random.below(8),
        2 => drop(bytes.remove(at)),
        3 => bytes.insert(at, random.pick(&[0, 1, 0x80, 0xFF])),
        _ => bytes.truncate(at),
    }
}

/// Records with something between them, some of them damaged.
pub fn region(random: &mut Random, hints: &[u8], records: usize) -> Vec<u8> {
    let mut region = junk(random);
    for _ in 0..records {
        let mut bytes = record(random, hints);
        if random.once_in(3) {
            damage(random, &mut bytes);
        }
        region.extend(bytes);
        if random.once_in(2) {
            region.extend(junk(random));
        }
    }
    region
}

/// A few bytes of the kinds that scans meet between records.
pub fn junk(random: &mut Random) -> Vec<u8> {
    let length = random.below(9);
    match random.below(4) {
        0 => vec![0; length],
        1 => random.bytes(length),
        2 => vec![random.pick(&[0x80, 0x81, 0xFF]); length],
        _ => (0..length).map(|_| random.pick(&super::bytes::TELLING)).collect(),
    }
}

#[cfg(test)]
mod tests {
    use super::*;

    #[test]
    fn a_header_says_its_own_length() {
        assert_eq!(header(&[(1, 1), (23, 1)], 1), [3, 1, 23]);
        assert_eq!(header(&[(0, 1)], 2), [0x80, 3, 0]);
        assert_eq!(header(&[(0, 9); 14], 1)[0], 127);
        assert_eq!(header(&[(0, 8); 16], 1)[..2], [0x81, 2]);
    }
}
