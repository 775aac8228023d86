//! Rows to learn from, as their column entries over one slice.

/// As many as a call takes.
const ROWS: usize = 1024;
const BODY: u64 = 0;
/// Where the texts of all rows stand.
const TEXTS: usize = 2048;
const TEXT_OF_NONE: u64 = 13;

pub fn bytes() -> Vec<u8> {
    vec![b'a'; TEXTS]
}

fn entries(width: usize, length: impl Fn(usize) -> u64) -> Vec<u64> {
    let entry = |i: usize| [BODY, TEXT_OF_NONE + 2 * length(i), 0, length(i)];
    (0..ROWS).flat_map(|i| entry(i).repeat(width)).collect()
}

/// A number of one type in every column, of so many bytes.
pub fn numbers(width: usize, kind: u64, length: u64) -> Vec<u64> {
    [BODY, kind, 0, length].repeat(width * ROWS)
}

pub fn one_type(width: usize) -> Vec<u64> {
    entries(width, |_| 20)
}

/// Texts of two lengths in each column, one of them in every third row.
pub fn two_types(width: usize) -> Vec<u64> {
    entries(width, |i| if i % 3 == 0 { 5 } else { 20 })
}

/// Another length in each row but the last, which repeats the first: the Rust takes any of those that are as common.
pub fn many_types(width: usize) -> Vec<u64> {
    entries(width, |i| (i % (ROWS - 1)) as u64)
}
