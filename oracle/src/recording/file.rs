//! The file of cases that a program reads. README.md has the format.

use crate::calls;
use crate::case::Case;

/// What a program has room for: bytes of a slice, words of a slice of words, cells of a list, bytes of a name, and bytes of a case.
const LARGEST_SLICE: usize = 70_000;
const MOST_WORDS: usize = 2400;
const MOST_CELLS: usize = 4096;
const LONGEST_NAME: usize = 400;
const LARGEST_CASE: usize = 100_000;

const HEAD: usize = 160;

/// What a head has room for, in words; the name and each slice have an end.
const NUMBERS: usize = 8;
const ENDS: usize = 1 + 5;
const LISTS_OF_BYTES: usize = 1;
const LISTS_OF_WORDS: usize = 3;

/// The call's number of a heading.
const HEADING: u64 = 0;

pub fn fits(name: &str, case: &Case) -> bool {
    name_fits(name)
        && case.slices.iter().all(|slice| slice.len() <= LARGEST_SLICE)
        && case.words.iter().all(|words| words.len() <= MOST_WORDS)
        && case.lists.iter().all(|&cells| cells <= MOST_CELLS)
        && HEAD + name.len() + slices(case).concat().len() <= LARGEST_CASE
}

pub fn name_fits(name: &str) -> bool {
    name.len() <= LONGEST_NAME && !name.contains('\n')
}

pub fn put_heading(file: &mut Vec<u8>, name: &str) {
    put(file, HEADING, name, &Case::default(), false);
}

pub fn put_case(file: &mut Vec<u8>, name: &str, case: &Case, rust: bool) {
    assert!(calls::of(case).takes(case));
    put(file, u64::from(case.call), name, case, rust);
}

/// A head, the name, and the bytes of the slices.
fn put(file: &mut Vec<u8>, call: u64, name: &str, case: &Case, rust: bool) {
    let mut body = name.as_bytes().to_vec();
    let mut ends = vec![HEAD + body.len()];
    for slice in slices(case) {
        body.extend(slice);
        ends.push(HEAD + body.len());
    }
    // A slice that the call lacks ends where it starts.
    ends.resize(ENDS, HEAD + body.len());
    let ends: Vec<u64> = ends.into_iter().map(|end| end as u64).collect();
    put_words(file, &[call], 1);
    put_words(file, &case.numbers, NUMBERS);
    put_words(file, &ends, ENDS);
    put_words(file, &cells(case, true), LISTS_OF_BYTES);
    put_words(file, &cells(case, false), LISTS_OF_WORDS);
    put_words(file, &[u64::from(rust)], 1);
    file.extend(body);
}

/// The slices of bytes, then those of words, highest byte first.
fn slices(case: &Case) -> Vec<Vec<u8>> {
    let words = case.words.iter().map(|words| words.iter().flat_map(|word| word.to_be_bytes()).collect());
    case.slices.iter().cloned().chain(words).collect()
}

/// The lengths of its lists of bytes, or of its lists of words.
fn cells(case: &Case, of_bytes: bool) -> Vec<u64> {
    let lists = if case.lists.is_empty() { &[] } else { calls::of(case).lists };
    let wanted = lists.iter().zip(&case.lists).filter(|(list, _)| list.cell.is_byte() == of_bytes);
    wanted.map(|(_, &cells)| cells as u64).collect()
}

/// As many words as the head has room for; the rest are 0.
fn put_words(file: &mut Vec<u8>, words: &[u64], room: usize) {
    assert!(words.len() <= room);
    for i in 0..room {
        file.extend(words.get(i).unwrap_or(&0).to_be_bytes());
    }
}

#[cfg(test)]
mod tests {
    use super::*;
    use crate::calls::RECOVER;

    fn words(file: &[u8]) -> Vec<u64> {
        file.chunks_exact(8).map(|word| u64::from_be_bytes(word.try_into().unwrap_or_default())).collect()
    }

    #[test]
    fn a_case_is_a_head_a_name_and_slices() {
        let case = Case::new(RECOVER, &[512], &[&[7; 5], &[2]], &[1, 9, 8, 4]).with_words(&[&[1], &[2, 3]]);
        let mut file = Vec::new();
        put_case(&mut file, "hipik", &case, true);
        let due = [13, 512, 0, 0, 0, 0, 0, 0, 0, 165, 170, 171, 179, 195, 195, 1, 9, 8, 4, 1];
        assert_eq!(words(&file[..160]), due);
        assert_eq!(&file[160..171], b"hipik\x07\x07\x07\x07\x07\x02");
        assert_eq!(words(&file[171..]), [1, 2, 3]);
    }

    #[test]
    fn a_heading_has_a_name_alone() {
        let mut file = Vec::new();
        put_heading(&mut file, "ab");
        assert_eq!(file.len(), 160 + 2);
        let mut due = [0; 20];
        due[9..15].fill(162);
        assert_eq!(words(&file[..160]), due);
    }

    #[test]
    fn what_is_too_long_does_not_fit() {
        let with = |slice: usize, words: usize, cells: usize| {
            let case = Case::new(RECOVER, &[512], &[&vec![0; slice], &vec![0; 10_240]], &[0, 0, 0, cells]);
            fits("", &case.with_words(&[&vec![0; words], &[]]))
        };
        assert!(with(70_000, 2400, 4096) && !with(70_001, 0, 0) && !with(0, 2401, 0) && !with(0, 0, 4097));
        assert!(name_fits(&"a".repeat(400)) && !name_fits(&"a".repeat(401)) && !name_fits("a\nb"));
        let whole = Case::new(RECOVER, &[512], &[&vec![0; 69_999], &vec![0; 29_840]], &[0, 0, 0, 0]);
        assert!(fits("a", &whole) && !fits("ab", &whole));
    }
}
