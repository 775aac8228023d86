//! Varints: the width first, then the value.

use crate::rules::limits::Limits;

/// A number, how many bytes it was read from, and whether these are more than it takes.
#[derive(Clone, Copy)]
pub struct Number {
    pub value: u64,
    pub width: usize,
    pub padded: bool,
}

pub enum Varint {
    Whole(Number),
    /// It runs off the slice, after so many bytes.
    Cut(usize),
}

pub fn read(limits: &Limits, bytes: &[u8], at: usize) -> Varint {
    let rest = bytes.get(at..).unwrap_or(&[]);
    let asking = rest.iter().take(limits.more_bytes).take_while(|&&b| b >= 128).count();
    if asking >= rest.len() {
        return Varint::Cut(rest.len());
    }
    let high = rest[..asking].iter().fold(0u64, |v, &b| v << 7 | u64::from(b & 127));
    let last = u64::from(rest[asking]);
    // The byte behind eight that ask for more gives all its bits.
    let bits = if asking == limits.more_bytes { 8 } else { 7 };
    let (value, width) = (high << bits | last, asking + 1);
    Varint::Whole(Number { value, width, padded: (limits.marks.padded)(value, width) })
}

/// A number in as few bytes as hold it, made as the format has it: seven bits a byte from the lowest on, each but the last with its
/// top bit set; where eight such bytes leave a bit over, the last has eight bits, and there are nine.
pub fn written(value: u64) -> Vec<u8> {
    let mut bytes = Vec::with_capacity(9);
    let mut rest = value;
    if rest >> 56 != 0 {
        bytes.push(rest as u8);
        rest >>= 8;
        bytes.extend((0..8).map(|i| (rest >> (7 * i)) as u8 | 128));
    } else {
        bytes.push(rest as u8 & 127);
        rest >>= 7;
        while rest != 0 {
            bytes.push(rest as u8 | 128);
            rest >>= 7;
        }
    }
    bytes.reverse();
    bytes
}

/// A varint that does not run off.
pub fn whole(limits: &Limits, bytes: &[u8], at: usize) -> Option<Number> {
    match read(limits, bytes, at) {
        Varint::Whole(number) => Some(number),
        Varint::Cut(_) => None,
    }
}

#[cfg(test)]
mod tests {
    use super::*;

    fn back(bytes: &[u8]) -> Option<(u64, usize, bool)> {
        whole(&Limits::of_the_rules(), bytes, 0).map(|n| (n.value, n.width, n.padded))
    }

    #[test]
    fn what_is_written_reads_back_and_is_not_padded() {
        for bits in 1..=64 {
            let largest = u64::MAX >> (64 - bits);
            for value in [0, largest, largest / 2 + 1] {
                let bytes = written(value);
                assert_eq!(back(&bytes), Some((value, bytes.len(), false)));
                // A byte more before it leaves the value as it is, while the ninth does not come in.
                let padded = (value, bytes.len() + 1, true);
                assert!(bytes.len() >= 8 || back(&[&[128][..], &bytes].concat()) == Some(padded));
            }
        }
        assert_eq!((written(1 << 56).len(), written((1 << 56) - 1).len()), (9, 8));
    }

    /// Of all varints up to three bytes, in the order of their widths, just the first with its value is not padded.
    #[test]
    fn the_first_of_each_value_is_not_padded() {
        let mut seen = std::collections::HashSet::new();
        for wide in 1..=3 {
            for bytes in (0u32..1 << (8 * wide)).map(|n| n.to_be_bytes()) {
                let whole = back(&bytes[4 - wide..]).filter(|number| number.1 == wide);
                assert!(whole.is_none_or(|(value, _, padded)| seen.insert(value) != padded));
            }
        }
        assert_eq!(seen.len(), 1 << 21);
    }
}
