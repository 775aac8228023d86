//! Cuts a differing case down: whatever can go while the case still differs, goes.

use crate::calls::LEARN;
use crate::case::Case;
use crate::rules::limits::WORDS_PER_ENTRY;
use std::time::{Duration, Instant};

/// What trying may cost: each try counts its bytes and cells, and a little for itself. On long blocks the Rust is slow,
/// and then it is the time that ends it.
const BUDGET: usize = 150_000_000;
const EACH_TRY: usize = 5_000;
const TIME: Duration = Duration::from_secs(10);

/// Only slices below this have their bytes made plainer one by one.
const SHORT: usize = 2000;

/// Parts of at least so many bytes are made 0 at once.
const LEAST_BLANK: usize = 8;

struct Shrink<D> {
    best: Case,
    differs: D,
    left: usize,
    until: Instant,
    changed: bool,
}

pub fn shrink(case: Case, differs: impl FnMut(&Case) -> bool) -> Case {
    let mut shrink = Shrink { best: case, differs, left: BUDGET, until: Instant::now() + TIME, changed: true };
    while shrink.changed {
        shrink.changed = false;
        shrink.pass();
    }
    shrink.best
}

impl<D: FnMut(&Case) -> bool> Shrink<D> {
    fn pass(&mut self) {
        for l in 0..self.best.lists.len() {
            let cells = self.best.lists[l] as u64;
            self.lower(cells, |case, n| case.lists[l] = n as usize);
        }
        if self.best.words.len() == 1 {
            self.shorten_words();
        } else {
            for table in (0..self.best.words.first().map_or(0, Vec::len)).rev() {
                self.try_with(|case| drop_table(case, table));
            }
        }
        for n in 0..self.best.numbers.len() {
            let number = self.best.numbers[n];
            self.lower(number, |case, value| case.numbers[n] = value);
        }
        // The last slice first: hints and patterns are short, and a try costs what the case is long.
        for s in (0..self.best.slices.len()).rev() {
            self.shorten(s);
        }
        for w in 0..self.best.words.len() {
            for i in 0..self.best.words[w].len() {
                let word = self.best.words[w][i];
                self.lower(word, |case, value| case.words[w][i] = value);
            }
        }
        for s in 0..self.best.slices.len() {
            self.blank(s);
            self.make_plain(s);
        }
    }

    /// Takes the changed case in place of the best one, if it differs too.
    fn try_with(&mut self, change: impl FnOnce(&mut Case)) -> bool {
        let cost = EACH_TRY + self.best.size();
        if self.left < cost || Instant::now() > self.until {
            self.left = 0;
            return false;
        }
        self.left -= cost;
        let mut smaller = self.best.clone();
        change(&mut smaller);
        let taken = smaller != self.best && (self.differs)(&smaller);
        if taken {
            self.best = smaller;
            self.changed = true;
        }
        taken
    }

    /// Takes parts out of a slice: halves first, single bytes last, each from the end.
    fn shorten(&mut self, s: usize) {
        let mut size = self.best.slices[s].len();
        while size > 0 {
            let mut end = self.best.slices[s].len();
            while end > 0 && self.left > 0 {
                let start = end.saturating_sub(size);
                let taken = self.try_with(|case| drop(case.slices[s].drain(start..end)));
                end = if taken { start.min(self.best.slices[s].len()) } else { start };
                if self.left < EACH_TRY + self.best.size() {
                    return;
                }
            }
            size /= 2;
        }
    }

    /// Takes parts out of a list of words that stands alone: rows and columns of entries to learn from, then halves.
    fn shorten_words(&mut self) {
        if self.best.call == LEARN {
            for row in (0..self.best.words[0].len() / WORDS_PER_ENTRY).rev() {
                self.try_with(|case| drop_row(case, row));
            }
            for column in (0..self.best.numbers[0]).rev() {
                self.try_with(|case| drop_column(case, column));
            }
        }
        let mut size = self.best.words[0].len();
        while size > 0 {
            for start in (0..self.best.words[0].len()).step_by(size).rev() {
                self.try_with(|case| {
                    let end = (start + size).min(case.words[0].len());
                    case.words[0].drain(start.min(end)..end);
                });
            }
            size /= 2;
        }
    }

    /// Makes parts of a slice 0: halves first, from the end. What stands behind them keeps its place.
    fn blank(&mut self, s: usize) {
        let length = self.best.slices[s].len();
        let mut size = length / 2;
        while size >= LEAST_BLANK {
            for start in (0..length).step_by(size).rev() {
                self.try_with(|case| case.slices[s][start..(start + size).min(length)].fill(0));
            }
            size /= 2;
        }
    }

    /// The lowest of some lower values that still differs; each is half as far off as the one before.
    fn lower(&mut self, value: u64, set: impl Fn(&mut Case, u64)) {
        let mut gap = value;
        while gap > 0 {
            if self.try_with(|case| set(case, value - gap)) {
                return;
            }
            gap /= 2;
        }
    }

    fn make_plain(&mut self, s: usize) {
        let length = self.best.slices[s].len();
        for i in 0..if length < SHORT { length } else { 0 } {
            let byte = u64::from(self.best.slices[s][i]);
            self.lower(byte, |case, value| case.slices[s][i] = value as u8);
        }
    }
}

/// A table goes with its root, its count and its hints.
fn drop_table(case: &mut Case, table: usize) {
    let hints = |counts: &[u64]| counts.iter().fold(0, |sum: u64, &count| sum.saturating_add(count)) as usize;
    let counts = &case.words[1];
    if table < counts.len() && hints(counts) == case.slices[1].len() {
        case.slices[1].drain(hints(&counts[..table])..hints(&counts[..=table]));
        case.words.iter_mut().for_each(|w| {
            w.remove(table);
        });
    }
}

/// A row to learn from, if there are so many.
fn drop_row(case: &mut Case, row: usize) {
    let width = WORDS_PER_ENTRY.saturating_mul(case.numbers[0] as usize);
    let start = row.saturating_mul(width);
    if let Some(end) = start.checked_add(width).filter(|&end| end <= case.words[0].len()) {
        case.words[0].drain(start..end);
    }
}

/// A column of all rows to learn from.
fn drop_column(case: &mut Case, column: u64) {
    let width = case.numbers[0];
    if column < width && width <= case.words[0].len() as u64 {
        let kept = |i: &usize| (i / WORDS_PER_ENTRY) as u64 % width != column;
        case.words[0] = (0..case.words[0].len()).filter(kept).map(|i| case.words[0][i]).collect();
        case.numbers[0] -= 1;
    }
}

#[cfg(test)]
mod tests {
    use super::*;

    #[test]
    fn what_does_not_matter_goes() {
        let case = Case::new(8, &[77, 5], &[&[9; 40], &[1, 2]], &[100, 7]);
        let small = shrink(case, |c| c.slices[0].len() >= 13 && c.lists[0] >= 3);
        assert_eq!(small, Case::new(8, &[0, 0], &[&[0; 13], &[]], &[3, 0]));
    }

    #[test]
    fn a_table_goes_as_a_whole() {
        let case = Case::new(13, &[512], &[&[], &[1, 2, 2, 3]], &[0, 0, 0, 0]).with_words(&[&[7, 8, 9], &[1, 2, 1]]);
        let fits = |c: &Case| c.words[1].iter().sum::<u64>() == c.slices[1].len() as u64;
        let small = shrink(case, |c| fits(c) && c.slices[1].contains(&2));
        assert_eq!(small.words, [[0], [2]]);
        assert_eq!(small.slices[1], [0, 2]);
    }

    #[test]
    fn rows_and_columns_to_learn_from_go() {
        let entries: Vec<u64> = (0..24).map(|i| if i == 20 { 7 } else { 0 }).collect();
        let case = Case::new(LEARN, &[2], &[&[]], &[2]).with_words(&[&entries]);
        let small =
            shrink(case, |c| c.words[0].len() as u64 % (4 * c.numbers[0].max(1)) == 0 && c.words[0].contains(&7));
        assert_eq!(small, Case::new(LEARN, &[0], &[&[]], &[0]).with_words(&[&[7, 0, 0, 0]]));
    }

    #[test]
    fn a_large_case_ends_soon() {
        let case = Case::new(8, &[0, 0], &[&[9; 1 << 24], &[1]], &[8, 4]);
        let mut tries = 0;
        shrink(case, |_| {
            tries += 1;
            false
        });
        assert!(tries < 20);
    }
}
