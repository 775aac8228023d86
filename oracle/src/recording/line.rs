//! What a program prints of a case: one line with all that the call answers and leaves. README.md has the format.

use crate::calls;
use crate::case::{Answer, Case, Cell};

/// Above so many changed cells a list is folded into one word.
const MOST_SHOWN: usize = 256;

/// Words below the first are decimal, and below the second have eight digits.
const DECIMAL: u64 = 1 << 28;
const SHORT: u64 = 1 << 32;

pub fn line(name: &str, case: &Case, answer: &Answer, rust: bool) -> String {
    let column = if rust { "Rust " } else { "rules" };
    let mut line = format!("{column} {name}: answers {}, out{}", word(answer.number), words(&answer.out));
    let lists = calls::of(case).lists;
    assert_eq!(answer.lists.len(), lists.len());
    for ((list, &lent), written) in lists.iter().zip(&case.lists).zip(&answer.lists) {
        let left = |i: usize| written.get(i).copied().unwrap_or(list.cell.recorded_pattern(i));
        let cells: Vec<u64> = (0..lent).map(left).collect();
        line.push_str(&format!("; {}{}", list.label, shown(list.cell, &cells)));
    }
    line + "\n"
}

/// An empty line before it sets it off.
pub fn heading(name: &str) -> String {
    format!("\n{name}\n")
}

fn word(word: u64) -> String {
    match word {
        0..DECIMAL => word.to_string(),
        DECIMAL..SHORT => format!("0x{word:08x}"),
        _ => format!("0x{word:016x}"),
    }
}

fn words(all: &[u64]) -> String {
    all.iter().map(|&w| format!(" {}", word(w))).collect()
}

fn shown(cell: Cell, cells: &[u64]) -> String {
    let changed: Vec<usize> = (0..cells.len()).filter(|&i| cells[i] != cell.recorded_pattern(i)).collect();
    match changed.len() {
        0 => " -".into(),
        1..=MOST_SHOWN => one_by_one(cell, cells, &changed),
        many => format!(" {many} changed, fold 0x{:016x}", fold(cells)),
    }
}

fn one_by_one(cell: Cell, cells: &[u64], changed: &[usize]) -> String {
    let mut text = String::new();
    let mut next = 0;
    for &i in changed {
        if i != next {
            text.push_str(&format!(" @{i}"));
        } else if i > 0 && cell.group().is_some_and(|group| i % group == 0) {
            text.push_str(" |");
        }
        text.push_str(&words(&cells[i..=i]));
        next = i + 1;
    }
    text
}

/// One word that depends on every cell and its place.
fn fold(cells: &[u64]) -> u64 {
    cells.iter().fold(0, |fold: u64, &cell| {
        let sum = fold.wrapping_add(cell);
        let spread = sum.wrapping_add(sum << 10);
        spread ^ spread >> 6
    })
}

#[cfg(test)]
mod tests {
    use super::*;
    use crate::calls::{BODY_LENGTH, LEAVES, SCAN, SEARCH, STATEMENT};
    use crate::case::word_pattern;
    use crate::rules::limits::WORDS_PER_ROW;

    fn search(written: Vec<u64>, lent: usize) -> String {
        let case = Case::new(SEARCH, &[], &[&[], &[]], &[lent]);
        line("x", &case, &Answer::new(0, vec![written.len() as u64], vec![written]), true)
    }

    #[test]
    fn words_have_three_widths() {
        let shown = [0, (1 << 28) - 1, 1 << 28, (1 << 32) - 1, 1 << 32, u64::MAX].map(word);
        let due = ["0", "268435455", "0x10000000", "0xffffffff", "0x0000000100000000", "0xffffffffffffffff"];
        assert_eq!(shown, due);
    }

    #[test]
    fn a_call_without_lists() {
        let case = Case::new(BODY_LENGTH, &[7], &[], &[]);
        let answer = Answer::new(0, vec![1, 8], Vec::new());
        assert_eq!(line("case 3", &case, &answer, false), "rules case 3: answers 0, out 1 8\n");
    }

    #[test]
    fn no_cell_changed() {
        assert_eq!(search(vec![], 0), "Rust  x: answers 0, out 0; places -\n");
        assert_eq!(search(vec![], 300), "Rust  x: answers 0, out 0; places -\n");
        let untouched = (0..4).map(word_pattern).collect();
        assert_eq!(search(untouched, 9), "Rust  x: answers 0, out 4; places -\n");
    }

    #[test]
    fn cells_behind_a_jump_have_their_place() {
        let cells = vec![7, word_pattern(1), word_pattern(2), 1 << 40, 9, word_pattern(5)];
        assert_eq!(search(cells, 8), "Rust  x: answers 0, out 6; places 7 @3 0x0000010000000000 9\n");
        assert_eq!(search(vec![word_pattern(0), 1], 2), "Rust  x: answers 0, out 2; places @1 1\n");
    }

    #[test]
    fn rows_and_entries_are_in_groups() {
        let case = Case::new(SCAN, &[0, 0], &[&[], &[2]], &[3 * WORDS_PER_ROW, 8]);
        let rows = (0..18).map(|i| if i == 9 { word_pattern(9) } else { i }).collect();
        let answer = Answer::new(9, vec![2, 6, 4], vec![rows, vec![0, 15, 2, 1, 0, 15, 5, 1]]);
        let due = "; rows 0 1 2 3 4 5 6 7 8 @10 10 11 12 13 14 15 16 17; entries 0 15 2 1 | 0 15 5 1\n";
        assert_eq!(line("x", &case, &answer, true), format!("Rust  x: answers 9, out 2 6 4{due}"));
        let rows: Vec<u64> = (0..10).collect();
        assert_eq!(shown(Cell::Row, &rows), " 0 1 2 3 4 5 6 7 8 | 9");
    }

    #[test]
    fn bytes_and_flags_have_one_pattern() {
        let case = Case::new(LEAVES, &[512, 1], &[&[]], &[2, 1, 1]);
        let answer = Answer::new(0, vec![0], vec![vec![0, 0], vec![0], vec![]]);
        assert_eq!(line("x", &case, &answer, true), "Rust  x: answers 0, out 0; flags 0 0; stack 0; leaves -\n");
        assert_eq!(shown(Cell::Flag, &[200, 201]), " -");
        let case = Case::new(STATEMENT, &[], &[&[]], &[4]);
        let answer = Answer::new(0, vec![2], vec![vec![0, 5]]);
        assert_eq!(line("x", &case, &answer, true), "Rust  x: answers 0, out 2; hints 0 5\n");
    }

    #[test]
    fn many_cells_are_folded() {
        let due: String = (0..256).map(|i| format!(" {i}")).collect();
        assert_eq!(search((0..256).collect(), 256), format!("Rust  x: answers 0, out 256; places{due}\n"));
        // The fold by other means: cells that are all 0 and one that is 1, with what is behind it not touched.
        assert_eq!(fold(&[0; 257]), 0);
        assert_eq!(fold(&[0, 0, 1]), 1025 ^ 16);
        assert_eq!(fold(&[1, 0]), (1041 + 1041 * 1024) ^ ((1041 + 1041 * 1024) >> 6));
        let text = search(vec![0; 257], 258);
        let untouched = fold(&[word_pattern(257)]);
        assert_eq!(text, format!("Rust  x: answers 0, out 257; places 257 changed, fold 0x{untouched:016x}\n"));
    }
}
