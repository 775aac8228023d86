//! Without guesses a call on free space must leave what it leaves in a way that rebuilds headers, less the rows that the rules mark as
//! rebuilt, in the same order. This is our side against itself: that each list is right is what the rest compares.

use crate::calls::rebuilding;
use crate::case::{Answer, Case};
use crate::rules::limits::NO_GUESSES;
use crate::server::Left;

/// The last call without guesses, and how many lists with guesses were held against such a one.
#[derive(Default)]
pub struct Without<'a> {
    last: Option<(&'a Case, Left)>,
    pub lists: usize,
    /// The rows that these have more.
    pub rebuilt: usize,
}

impl<'a> Without<'a> {
    /// Behind that call.
    pub fn after(case: &'a Case, left: Left) -> Without<'a> {
        Without { last: Some((case, left)), ..Without::default() }
    }

    /// Takes what our side left in a case. Where the last call without guesses differs in its way alone, and there was room for either
    /// list, says why they do not belong together.
    pub fn put(&mut self, case: &'a Case, answer: &Answer, ours: Left) -> Option<String> {
        if rebuilding(case).0 == Some(NO_GUESSES) {
            self.last = Some((case, ours));
            return None;
        }
        let (_, without) = self.last.as_ref().filter(|(last, _)| same_but_for_the_way(last, case))?;
        if ours.number != 0 || without.number != 0 {
            return None;
        }
        self.lists += 1;
        self.rebuilt += answer.rebuilt.iter().filter(|&&rebuilt| rebuilt).count();
        differs(answer, &ours, without)
    }
}

/// Whether two cases on free space differ in their way of rebuilding alone. Room may differ, too: no word of a row depends on it.
pub fn same_but_for_the_way(one: &Case, other: &Case) -> bool {
    let ((way, numbers), (_, others)) = (rebuilding(one), rebuilding(other));
    let lent = (one.call, &one.slices, &one.words) == (other.call, &other.slices, &other.words);
    way.is_some() && numbers == others && lent
}

/// The same case without guesses, if it may have some.
pub fn without(case: &Case) -> Option<Case> {
    let (way, others) = rebuilding(case);
    way.filter(|&way| way != NO_GUESSES)?;
    Some(Case { numbers: [&[NO_GUESSES], others].concat(), ..case.clone() })
}

/// Why what is left without guesses is not the rest of what is left with them.
fn differs(answer: &Answer, with: &Left, without: &Left) -> Option<String> {
    let kept = answer.rebuilt.iter().filter(|&&rebuilt| !rebuilt).count();
    if without.out[0] != kept as u64 {
        return Some(format!("{} rows without guesses, {kept} with them less the rebuilt ones", without.out[0]));
    }
    // Rows are the last list but one, and their entries the last.
    (with.lists.len() - 2..with.lists.len()).find_map(|l| {
        let words_per_row = answer.lists[l].len() / answer.rebuilt.len().max(1);
        let rows = with.lists[l].chunks(words_per_row.max(1)).zip(&answer.rebuilt);
        let rest: Vec<u64> = rows.filter(|(_, rebuilt)| !**rebuilt).flat_map(|(row, _)| row).copied().collect();
        let i = (0..rest.len()).find(|&i| without.lists[l][i] != rest[i])?;
        Some(format!(
            "list {l}, cell {i}: {} without guesses, {} with them less the rebuilt rows",
            without.lists[l][i], rest[i]
        ))
    })
}

#[cfg(test)]
mod tests {
    use super::*;
    use crate::calls::{self, GAP_SLICE};
    use crate::cases::gaps::WAYS;
    use crate::cases::regions::lists;
    use crate::rules::limits::Limits;

    /// A gap with a row; a block with a cell, and types before its record, in it and behind it.
    const PAGE: [u8; 22] = [13, 0, 12, 0, 0, 0, 12, 0, 2, 8, 0, 0, 0, 0, 0, 10, 2, 7, 2, 8, 9, 8];

    type Fault = fn(&mut Left);

    /// How many lists are compared, and how many rebuilt rows they have, with room for so many rows. Our side answers by the rules, with a
    /// fault in what it leaves without guesses.
    fn tried(rows: usize, fault: Fault) -> Result<(usize, usize), String> {
        let cases = WAYS.map(|way| Case::new(GAP_SLICE, &[way, 0, 0], &[&PAGE, &[0]], &lists(rows, 1)));
        let mut without = Without::default();
        for case in &cases {
            let answer = (calls::of(case).answer)(&Limits::of_the_rules(), case);
            let mut ours = Left::from(answer.clone());
            if case.numbers[0] == NO_GUESSES {
                fault(&mut ours);
            }
            without.put(case, &answer, ours).map_or(Ok(()), Err)?;
        }
        Ok((without.lists, without.rebuilt))
    }

    #[test]
    fn the_rules_belong_together() {
        // Rebuilt rows stand at 0, 3, 4 and 5 of the payload, in either way.
        assert_eq!(tried(9, |_| {}), Ok((2, 8)));
        // There is room for the gap's row and the cell's alone.
        assert_eq!(tried(2, |_| {}), Ok((0, 0)));
    }

    #[test]
    fn faults_are_seen() {
        let faults: [(&str, Fault); 5] = [
            ("a row less", |left| left.out[0] -= 1),
            ("a row more", |left| left.out[0] += 1),
            ("an offset", |left| left.lists[0][0] += 1),
            ("an entry of the last row", |left| left.lists[1][6] += 1),
            ("another order", |left| left.lists[0].rotate_left(9)),
        ];
        for (what, fault) in faults {
            assert!(tried(9, fault).is_err(), "{what}");
        }
    }
}
