//! Bytes to make cases of.

/// Bytes that tell: the short types, both sides of the top bit, and the ends.
pub const TELLING: [u8; 16] = [0, 1, 2, 3, 4, 7, 8, 9, 10, 12, 13, 14, 0x7F, 0x80, 0x81, 0xFF];

/// Types for short headers: every small one, and first bytes of longer varints.
pub const TYPES: [u8; 22] = [0, 1, 2, 3, 4, 5, 6, 7, 8, 9, 10, 11, 12, 13, 14, 15, 16, 0x7F, 0x80, 0x81, 0x82, 0xFF];

/// Every string of up to `most` symbols.
pub fn every(alphabet: &[u8], most: usize, mut with: impl FnMut(&[u8])) {
    for length in 0..=most {
        let mut digits = vec![0; length];
        let mut text = vec![alphabet[0]; length];
        loop {
            with(&text);
            let Some(i) = (0..length).rev().find(|&i| digits[i] + 1 < alphabet.len()) else {
                break;
            };
            digits[i] += 1;
            digits[i + 1..].fill(0);
            for j in i..length {
                text[j] = alphabet[digits[j]];
            }
        }
    }
}

/// The value in so many bytes, with leading zeros where it needs fewer.
pub fn varint(value: u64, width: usize) -> Vec<u8> {
    let mut bytes = vec![0; width];
    let mut rest = value;
    for i in (0..width).rev() {
        // The ninth byte has eight bits, and the last byte no top bit otherwise.
        let (bits, top) = match (i, width) {
            (8, _) => (8, 0),
            _ if i + 1 == width => (7, 0),
            _ => (7, 0x80),
        };
        bytes[i] = (rest & ((1 << bits) - 1)) as u8 | top;
        rest >>= bits;
    }
    bytes
}

/// The fewest bytes that hold the value.
pub fn width(value: u64) -> usize {
    (1..9).find(|w| value >> (7 * w) == 0).unwrap_or(9)
}

/// Around each power of two, and the ends.
pub fn telling_numbers() -> Vec<u64> {
    let mut numbers: Vec<u64> = (0..=20).collect();
    for bit in 4..64 {
        let power = 1u64 << bit;
        numbers.extend([power - 1, power, power + 1, power + 11, power + 12, power + 13]);
    }
    numbers.extend((0..20).map(|n| u64::MAX - n));
    numbers
}

#[cfg(test)]
mod tests {
    use super::*;

    #[test]
    fn varints_are_as_the_format_has_them() {
        assert_eq!(varint(128, 2), [0x81, 0]);
        assert_eq!(varint(2, 2), [0x80, 2]);
        assert_eq!(varint(u64::MAX, 9), [0xFF; 9]);
        assert_eq!((width(127), width(128), width(u64::MAX)), (1, 2, 9));
    }

    #[test]
    fn every_string_comes_once() {
        let mut seen = std::collections::HashSet::new();
        every(&[1, 2, 3], 3, |s| assert!(seen.insert(s.to_vec())));
        assert_eq!(seen.len(), 1 + 3 + 9 + 27);
    }
}
