//! Pages by their number.

use super::databases::SIZES;
use crate::calls::PAGE_DATA;
use crate::case::Case;
use crate::random::Random;
use crate::runner::Sink;

/// No page has so many bytes; some are a good size in their lower bits.
pub const BAD_SIZES: [u64; 18] = [
    0,
    1,
    2,
    100,
    256,
    511,
    513,
    768,
    1000,
    65_535,
    65_537,
    98_304,
    131_072,
    (1 << 32) + 512,
    1 << 32,
    1 << 63,
    (1 << 63) + 512,
    u64::MAX,
];

/// Page numbers that no database has, with those whose place would come out in it where a number is cut off.
pub fn far(size: usize) -> Vec<u64> {
    let around = |n: u64| [n.wrapping_sub(1), n, n.wrapping_add(1), n.wrapping_add(2)];
    let wrapped = (1u64 << 63) / (size as u64 / 2);
    [1 << 16, 1 << 31, 1 << 32, 1 << 63, wrapped, 0].into_iter().flat_map(around).filter(|&n| n > 9).collect()
}

pub fn all(sink: &mut dyn Sink, random: &mut Random, count: usize) {
    for size in SIZES {
        for pages in 0..=3 {
            for length in around(pages * size) {
                let db = vec![0; length];
                for page in (0..=5).chain(far(size)) {
                    put(sink, &db, size as u64, page);
                }
            }
        }
    }
    for size in BAD_SIZES {
        for page in [0, 1, 2, 99, u64::MAX] {
            put(sink, &[0; 1024], size, page);
        }
    }
    for _ in 0..count {
        let size = random.pick(&SIZES[..3]);
        let length = random.below(6 * size);
        let page = if random.once_in(9) { random.any_width() } else { random.below(8) as u64 };
        let size = if random.once_in(9) { random.any_width() } else { size as u64 };
        put(sink, &vec![0; length], size, page);
    }
}

/// A length, and one byte less and more.
fn around(length: usize) -> impl Iterator<Item = usize> {
    length.saturating_sub(1)..=length + 1
}

fn put(sink: &mut dyn Sink, db: &[u8], size: u64, page: u64) {
    sink.put(Case::new(PAGE_DATA, &[size, page], &[db], &[]));
}
