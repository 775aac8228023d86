//! The list of a scan from 0 is the only one with the properties of rule 4.17. Over short regions every list is tried: of the rows that
//! attempts find, each taken or left out. Just one of them has the properties, and the scan must leave it.

use crate::calls::{ATTEMPT, SCAN};
use crate::case::Case;
use crate::cases::bytes::every;
use crate::cases::regions::lists;
use crate::resuming::Ask;
use crate::runner::BATCH_CASES;
use crate::server::Left;
use crate::text;

/// Lengths and types of short headers, and a byte that pads them.
const BYTES: [u8; 5] = [0, 1, 2, 3, 0x80];
const LENT: [&[u8]; 2] = [&[0], &[0, 5]];

/// How many regions were tried, and lists in them.
#[derive(Debug, Default, PartialEq, Eq)]
pub struct Tried {
    pub regions: usize,
    pub lists: usize,
}

/// A row: its words and its entries.
#[derive(Clone, Copy)]
struct Row<'a> {
    words: &'a [u64],
    entries: &'a [u64],
}

impl<'a> Row<'a> {
    /// What an attempt left, if it found a row.
    fn of(left: &'a Left) -> Option<Row<'a>> {
        (left.out[0] == 1).then(|| Row { words: &left.lists[0], entries: &left.lists[1] })
    }

    fn at(&self) -> u64 {
        self.words[0]
    }

    fn end(&self) -> u64 {
        self.words[0] + self.words[1]
    }

    fn confidence(&self) -> f32 {
        f32::from_bits(self.words[6] as u32)
    }
}

/// Whether a list has the properties, in the rule's order. Its rows are what attempts found, which is one of them.
fn has_all(rows: &[Row], found: &[Option<Row>]) -> bool {
    let len = found.len() as u64;
    let each_two =
        |hold: fn(&Row, &Row) -> bool| (0..rows.len()).all(|i| rows[i + 1..].iter().all(|q| hold(&rows[i], q)));
    let is_covered = |o: u64| rows.iter().any(|p| p.at() <= o && o < p.end());
    each_two(|p, q| p.at() < q.at())
        && rows.iter().all(|p| p.at() + 2 < len)
        && rows.iter().all(|p| p.end() <= len)
        && each_two(|p, q| p.end() <= q.at())
        && rows.iter().all(|p| (2..=65_536).contains(&p.words[1]))
        && rows.iter().all(|p| p.confidence() > 0.0 && p.confidence() <= 1.0)
        && (0..len.saturating_sub(2)).all(|o| is_covered(o) || found[o as usize].is_none())
}

/// Every list of the rows that were found.
fn all_lists<'a>(found: &[Option<Row<'a>>]) -> Vec<Vec<Row<'a>>> {
    found.iter().flatten().fold(vec![Vec::new()], |lists, &row| {
        let with: Vec<_> = lists.iter().map(|rows| [rows.as_slice(), &[row]].concat()).collect();
        [lists, with].concat()
    })
}

/// How many lists there are, where just one has the properties and is what the scan left.
fn judged(scan: &Left, attempts: &[Left]) -> Result<usize, String> {
    let found: Vec<_> = attempts.iter().map(Row::of).collect();
    let all = all_lists(&found);
    let fit: Vec<_> = all.iter().filter(|rows| has_all(rows, &found)).collect();
    let [rows] = fit.as_slice() else {
        return Err(format!("{} of {} lists have the properties of rule 4.17", fit.len(), all.len()));
    };
    let words: Vec<u64> = rows.iter().flat_map(|row| row.words).copied().collect();
    let entries: Vec<u64> = rows.iter().flat_map(|row| row.entries).copied().collect();
    let same = scan.number == 0
        && scan.out[..2] == [rows.len() as u64, found.len() as u64]
        && scan.lists[0].starts_with(&words)
        && scan.lists[1].starts_with(&entries);
    same.then_some(all.len())
        .ok_or_else(|| format!("the list of rule 4.17 has the rows {words:?}, and {scan:?} is left"))
}

/// Regions that are being tried. Of each, the scan with room for half as many rows as there are bytes, and the attempts at all offsets.
struct Trying<'a, 'b> {
    ask: &'a mut Ask<'b>,
    batch: Vec<Case>,
    tried: Result<Tried, String>,
}

impl Trying<'_, '_> {
    fn put(&mut self, region: &[u8], hints: &[u8]) {
        let lent = |rows| lists(rows, hints.len());
        self.batch.push(Case::new(SCAN, &[0, 0], &[region, hints], &lent(region.len() / 2)));
        let offsets = 0..region.len() as u64;
        self.batch.extend(offsets.map(|o| Case::new(ATTEMPT, &[0, o], &[region, hints], &lent(1))));
        if self.batch.len() >= BATCH_CASES {
            self.finish();
        }
    }

    fn finish(&mut self) {
        let batch = std::mem::take(&mut self.batch);
        if let Ok(tried) = &mut self.tried {
            if let Err(why) = add(tried, &batch, self.ask) {
                self.tried = Err(why);
            }
        }
    }
}

fn add(tried: &mut Tried, batch: &[Case], ask: &mut Ask) -> Result<(), String> {
    let left = ask(batch).map_err(|e| format!("the server died: {e}"))?;
    let mut answers = left.as_slice();
    for case in batch.iter().filter(|case| case.call == SCAN) {
        let (of_region, rest) = answers.split_at(1 + case.slices[0].len());
        tried.lists += judged(&of_region[0], &of_region[1..]).map_err(|why| format!("{why}: {}", text::line(case)))?;
        tried.regions += 1;
        answers = rest;
    }
    Ok(())
}

/// Tries every region of up to so many bytes; or what is wrong with the first that has another list.
pub fn every_list(longest: usize, ask: &mut Ask) -> Result<Tried, String> {
    let mut trying = Trying { ask, batch: Vec::new(), tried: Ok(Tried::default()) };
    for hints in LENT {
        every(&BYTES, longest, |region| trying.put(region, hints));
    }
    trying.finish();
    trying.tried
}

#[cfg(test)]
mod tests {
    use super::*;
    use crate::calls;
    use crate::rules::limits::Limits;

    /// Our side by the rules, with a fault in what one of the calls leaves.
    fn tried(call: u8, fault: fn(&Case, &mut Left)) -> Result<Tried, String> {
        let limits = Limits::of_the_rules();
        let answer = |case: &Case| {
            let mut left = Left::from((calls::of(case).answer)(&limits, case));
            if case.call == call {
                fault(case, &mut left);
            }
            left
        };
        every_list(5, &mut |cases| Ok(cases.iter().map(answer).collect()))
    }

    #[test]
    fn the_rules_have_one_list() {
        let tried = tried(SCAN, |_, _| {}).expect("one list a region");
        // Every string of up to five of five bytes, for one column and for two.
        assert_eq!(tried.regions, 2 * (1 + 5 + 25 + 125 + 625 + 3125));
        assert!(tried.lists > tried.regions);
    }

    fn raise(words: &mut [u64], place: usize) {
        words.iter_mut().skip(place).take(1).for_each(|word| *word += 1);
    }

    #[test]
    fn faults_are_seen() {
        let faults: [(&str, u8, fn(&Case, &mut Left)); 7] = [
            ("a row less", SCAN, |_, left| left.out[0] = left.out[0].saturating_sub(1)),
            ("an offset", SCAN, |_, left| raise(&mut left.lists[0], 0)),
            ("an entry's start", SCAN, |_, left| raise(&mut left.lists[1], 2)),
            ("the place", SCAN, |_, left| left.out[1] += 1),
            ("the number", SCAN, |_, left| left.number = 9),
            ("no row at 1", ATTEMPT, |case, left| left.out[0] *= u64::from(case.numbers[1] != 1)),
            ("more bytes than there are", ATTEMPT, |_, left| raise(&mut left.lists[0], 1)),
        ];
        for (what, call, fault) in faults {
            assert!(tried(call, fault).is_err(), "{what}");
        }
    }
}
