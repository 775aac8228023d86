//! Scans that are made in parts, each from the place that the one before returned: together they must leave what one scan leaves that has
//! the room of all of them.

use crate::calls;
use crate::case::Case;
use crate::cases::regions::lists;
use crate::rules::attempt::scan;
use crate::rules::limits::{Limits, WORDS_PER_ENTRY, WORDS_PER_ROW};
use crate::runner::{BATCH_CASES, BATCH_SIZE};
use crate::server::Left;
use std::io;

/// Up to so many rows a scan is also made in three parts or more, of one row each, of two, and so on, and with room for all rows but one.
const FEW: usize = 64;
/// A scan is left out if its ways, each with the whole region, come to more bytes than that.
const MOST_BYTES: usize = 1 << 27;

/// What a scan leaves, or several one behind the other.
#[derive(Debug, PartialEq, Eq)]
struct Sheet {
    rows: Vec<u64>,
    entries: Vec<u64>,
    number: u64,
    place: u64,
    count: u64,
}

impl Sheet {
    fn of(left: &Left, columns: usize) -> Sheet {
        let written = left.out[0] as usize;
        let front = |list: usize, words: usize| left.lists[list].iter().copied().take(words).collect();
        Sheet {
            rows: front(0, WORDS_PER_ROW * written),
            entries: front(1, WORDS_PER_ENTRY * columns * written),
            number: left.number,
            place: left.out[1],
            count: left.out[2],
        }
    }

    fn joined(mut self, behind: Sheet) -> Sheet {
        self.rows.extend(behind.rows);
        self.entries.extend(behind.entries);
        Sheet { count: self.count + behind.count, number: behind.number, place: behind.place, ..self }
    }
}

/// How many rows a scan finds with room for all of them, none where it is refused; nothing if there are too many to try.
pub fn rows_of(limits: &Limits, case: &Case) -> Option<usize> {
    let none = Case { lists: vec![0, 0], ..case.clone() };
    if !matches!((calls::of(&none).answer)(limits, &none).number, 0 | 9) {
        return Some(0);
    }
    let (region, hints) = (&case.slices[0], &case.slices[1]);
    let start = usize::try_from(case.numbers[1]).unwrap_or(usize::MAX);
    let rows = scan(limits, region, hints, start, usize::MAX).rows.len();
    ((rows + 1) * region.len() <= MOST_BYTES).then_some(rows)
}

/// A scan that is made in parts with room for so many rows each; the whole is one part.
struct Parts<'a> {
    case: &'a Case,
    rooms: Vec<usize>,
    sheet: Option<Sheet>,
}

impl Parts<'_> {
    /// The part that comes at that turn, from the place that the one before returned.
    fn part(&self, turn: usize) -> Option<Case> {
        let start = self.sheet.as_ref().map_or(self.case.numbers[1], |sheet| sheet.place);
        let numbers = vec![self.case.numbers[0], start];
        let lists = lists(*self.rooms.get(turn)?, self.case.slices[1].len()).to_vec();
        Some(Case { numbers, lists, ..self.case.clone() })
    }

    fn put(&mut self, left: &Left) {
        let next = Sheet::of(left, self.case.slices[1].len());
        self.sheet = Some(match self.sheet.take() {
            Some(sheet) => sheet.joined(next),
            None => next,
        });
    }

    fn size(&self) -> usize {
        let cells: usize = lists(self.rooms.iter().sum(), self.case.slices[1].len()).iter().sum();
        self.case.slices[0].len() + cells
    }
}

/// The rooms that come to so many rows: all at once; every number of rows and then what is left; and, if they are few, every number again
/// and again where that makes three parts or more.
fn ways(room: usize) -> Vec<Vec<usize>> {
    let in_two = (0..=room).map(|first| vec![first, room - first]);
    let evenly = |part: usize| (0..room).step_by(part).map(|from| part.min(room - from)).collect();
    let most = if room <= FEW { room.div_ceil(2) } else { 1 };
    [vec![room]].into_iter().chain(in_two).chain((1..most).map(evenly)).collect()
}

/// A scan that finds so many rows, in all ways; behind each whole come the ways that must leave the same.
fn all_ways(case: &Case, rows: usize) -> impl Iterator<Item = Parts<'_>> {
    let least = if rows <= FEW { rows.saturating_sub(1) } else { rows };
    (least..=rows).flat_map(ways).map(move |rooms| Parts { case, rooms, sheet: None })
}

/// Answers cases, in their order.
pub type Ask<'a> = dyn FnMut(&[Case]) -> io::Result<Vec<Left>> + 'a;

/// Makes scans that find so many rows each in all ways: how many these are, or the first that leaves something else than the whole.
pub fn in_parts(scans: &[(&Case, usize)], ask: &mut Ask) -> Result<usize, (Case, String)> {
    let mut ways = scans.iter().flat_map(|(case, rows)| all_ways(case, *rows)).peekable();
    let mut whole = None;
    let mut made = 0;
    while let Some(first) = ways.next() {
        let mut size = first.size();
        let mut batch = vec![first];
        while let Some(parts) = ways.next_if(|parts| batch.len() < BATCH_CASES && size + parts.size() <= BATCH_SIZE) {
            size += parts.size();
            batch.push(parts);
        }
        let first = batch[0].case.clone();
        scan_all(&mut batch, ask).map_err(|e| (first, format!("the server died: {e}")))?;
        for parts in batch {
            if parts.rooms.len() == 1 {
                whole = parts.sheet;
            } else if parts.sheet == whole {
                made += 1;
            } else {
                let why = format!("in parts of {:?} rows {:?}, at once {whole:?}", parts.rooms, parts.sheet);
                return Err((parts.case.clone(), why));
            }
        }
    }
    Ok(made)
}

/// The first part of each, then the second where there is one, and so on.
fn scan_all(batch: &mut [Parts], ask: &mut Ask) -> io::Result<()> {
    for turn in 0.. {
        let parts: Vec<Case> = batch.iter().filter_map(|parts| parts.part(turn)).collect();
        if parts.is_empty() {
            break;
        }
        let left = ask(&parts)?;
        let due = batch.iter_mut().filter(|parts| turn < parts.rooms.len());
        due.zip(&left).for_each(|(parts, left)| parts.put(left));
    }
    Ok(())
}

#[cfg(test)]
mod tests {
    use super::*;
    use crate::calls::SCAN;

    /// Three rows, with a byte between two of them.
    const REGION: [u8; 10] = [2, 15, 97, 1, 2, 15, 98, 2, 15, 99];

    fn case(start: u64, hints: &[u8]) -> Case {
        Case::new(SCAN, &[100, start], &[&REGION, hints], &[0, 0])
    }

    /// Our side by the rules, with a fault in what a scan from that start leaves.
    fn tried(case: &Case, fault: fn(u64, &mut Left)) -> Result<usize, String> {
        let limits = Limits::of_the_rules();
        let rows = rows_of(&limits, case).unwrap_or_default();
        let answer = |part: &Case| {
            let mut left = Left::from((calls::of(part).answer)(&limits, part));
            fault(part.numbers[1], &mut left);
            left
        };
        let made = in_parts(&[(case, rows)], &mut |parts| Ok(parts.iter().map(answer).collect()));
        made.map_err(|(_, why)| why)
    }

    #[test]
    fn the_rules_add_up() {
        let none = |_, _: &mut Left| {};
        // Room for two rows: 0 2, 1 1 and 2 0; for three: 0 3 to 3 0, and 1 1 1.
        assert_eq!(tried(&case(0, &[2]), none), Ok(3 + 5));
        // One row: with room for none, 0 0; with room for it, 0 1 and 1 0.
        assert_eq!(tried(&case(5, &[2]), none), Ok(1 + 2));
        // A start behind the region, a bad hint, no hints: 0 0.
        for case in [case(u64::MAX, &[2]), case(0, &[6]), case(0, &[])] {
            assert_eq!(tried(&case, none), Ok(1));
        }
    }

    #[test]
    fn faults_are_seen() {
        let faults: [(&str, fn(u64, &mut Left)); 6] = [
            ("the place is behind the row", |_, left| left.out[1] += u64::from(left.number == 9)),
            ("the row without room counts", |_, left| left.out[2] += u64::from(left.number == 9)),
            ("full is done from 4 on", |start, left| left.number *= u64::from(start != 4)),
            ("an offset", |start, left| left.lists[0].iter_mut().take(1).for_each(|word| *word -= start.min(1))),
            ("an entry from 7 on", |start, left| left.lists[1].iter_mut().take(3).for_each(|word| *word += start / 7)),
            ("a row is lost from 4 on", |start, left| left.out[0] -= u64::from(start == 4 && left.out[0] > 0)),
        ];
        for (what, fault) in faults {
            assert!(tried(&case(0, &[2]), fault).is_err(), "{what}");
        }
    }
}
