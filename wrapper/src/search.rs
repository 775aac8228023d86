//! Pattern search.

use crate::door;
use crate::Refusal;

/// The places of a pattern in a haystack, rising; they may overlap. An empty pattern is nowhere. At worst, as in a
/// haystack of one byte over and over, the time grows with both lengths multiplied.
///
/// # Errors
///
/// [`Refusal::TooLarge`] for a haystack of more than [`LARGEST_REGION`](crate::LARGEST_REGION) bytes.
pub fn search<'a>(haystack: &'a [u8], pattern: &'a [u8]) -> Result<Places<'a>, Refusal> {
    let mut places = Places {
        haystack,
        pattern,
        start: 0,
        batch: [0; ROOM],
        filled: 0,
        given: 0,
        more: false,
    };
    places.go_on(0)?;
    Ok(places)
}

/// The places of a batch.
const ROOM: usize = 256;

/// The places of a pattern; made by [`search`]. It holds no more than 256 of them at a time: where a batch is used up, the search
/// goes on behind its last place.
#[derive(Debug)]
pub struct Places<'a> {
    haystack: &'a [u8],
    pattern: &'a [u8],
    /// The batch is of the haystack from `start` on.
    start: usize,
    batch: [u64; ROOM],
    filled: usize,
    given: usize,
    more: bool,
}

impl Places<'_> {
    fn go_on(&mut self, start: usize) -> Result<(), Refusal> {
        let (number, [written]) =
            door::boyer_moore_search(&self.haystack[start..], self.pattern, &mut self.batch);
        self.more = Refusal::more(number)?;
        (self.start, self.filled, self.given) = (start, written as usize, 0);
        Ok(())
    }
}

impl Iterator for Places<'_> {
    type Item = usize;

    fn next(&mut self) -> Option<usize> {
        if self.given == self.filled {
            return None;
        }
        let place = self.start + self.batch[self.given] as usize;
        self.given += 1;
        if self.given == self.filled && self.more {
            self.go_on(place + 1)
                .expect("what was searched once is not refused");
        }
        Some(place)
    }
}

#[cfg(test)]
mod tests {
    use super::*;
    use crate::LARGEST_REGION;

    fn places(haystack: &[u8], pattern: &[u8]) -> Vec<usize> {
        search(haystack, pattern).unwrap().collect()
    }

    #[test]
    fn places_rise_and_overlap() {
        assert_eq!(places(b"plot plot", b"plot"), [0, 5]);
        assert_eq!(places(b"aaaa", b"aa"), [0, 1, 2]);
        assert!(places(b"aaaa", b"").is_empty());
    }

    #[test]
    fn more_places_than_a_batch() {
        for count in [ROOM - 1, ROOM, ROOM + 1, 2 * ROOM, 1000] {
            assert!(places(&vec![7; count + 1], &[7, 7])
                .into_iter()
                .eq(0..count));
        }
    }

    #[test]
    fn a_large_haystack_is_refused() {
        let refused = search(&vec![0; LARGEST_REGION + 1], b"x").map(|_| ());
        assert_eq!(refused, Err(Refusal::TooLarge));
    }
}
