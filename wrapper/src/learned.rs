//! Types that are learned from rows, and carving with them.

use crate::batches::{Call, Carved};
use crate::door;
use crate::{Entry, Refusal, State, MOST_COLUMNS, MOST_LEARNED};

/// The serial type that is the commonest in each column of rows over `bytes`, by their values and not by the types that these
/// were stored with: NULL counts as 0, an integer as 8 if it is 0 or 1 and else as the first of 1, 2, 3, 4 and 6 that holds it,
/// a real as 7, a text of n bytes as 13 + 2n and a blob as 12 + 2n. Of several the smallest is taken. There are as many as the
/// longest row has columns.
///
/// ```
/// # use phsarodil::{learn_signatures, scan, Hint};
/// let region = [0x03, 0x01, 0x17, 0x2a, 0x68, 0x69, 0x70, 0x69, 0x6b].repeat(3);
/// let rows: Vec<_> = scan(&region, &[Hint::Integer, Hint::Text], 0)?.collect();
/// let types = learn_signatures(&region, rows.iter().map(|record| &record.entries[..]))?;
/// assert_eq!(types, [1, 23]);
/// # Ok::<(), phsarodil::Refusal>(())
/// ```
///
/// # Errors
///
/// [`Refusal::ColumnCount`] for a row of more than [`MOST_COLUMNS`] entries, [`Refusal::Malformed`] for an entry that
/// [`Entry::read`] refuses, and [`Refusal::TooLarge`], also for more than [`MOST_LEARNED`] rows.
pub fn learn_signatures<'e>(
    bytes: &[u8],
    rows: impl IntoIterator<Item = &'e [Entry]>,
) -> Result<Vec<u64>, Refusal> {
    let (width, entries) = groups(rows)?;
    let mut types = [0; MOST_COLUMNS];
    let (number, [written]) = door::learn_signatures(bytes, width, &entries, &mut types);
    Refusal::check(number)?;
    Ok(types[..written as usize].to_vec())
}

/// The rows of a region whose types are of the classes of learned ones, one a column ([`learn_signatures`]). A row may have
/// fewer columns than there are types; its confidence is the share of the types lent that are of the class.
///
/// # Errors
///
/// [`Refusal::ColumnCount`] for the number of types, [`Refusal::TooLarge`] and [`Refusal::BaseTooFar`].
pub fn carve_unallocated<'a>(
    region: &'a [u8],
    types: &[u64],
    base: u64,
) -> Result<Carved<'a>, Refusal> {
    Carved::new(Call::Unallocated(types.to_vec()), region, base)
}

/// The words of rows in groups that are all as wide as the longest, and that width, which is 1 at the least: no rows are no
/// refusal. No more are made than a call takes.
fn groups<'e>(rows: impl IntoIterator<Item = &'e [Entry]>) -> Result<(usize, Vec<u64>), Refusal> {
    let rows: Vec<&[Entry]> = rows.into_iter().take(MOST_LEARNED + 1).collect();
    let width = rows.iter().map(|row| row.len()).max().unwrap_or(0).max(1);
    if width > MOST_COLUMNS {
        return Err(Refusal::ColumnCount);
    }
    let unused = Entry {
        state: State::Unused,
        kind: 0,
        start: 0,
        length: 0,
    };
    let words = rows
        .iter()
        .flat_map(|row| (0..width).map(|i| row.get(i).copied().unwrap_or(unused)))
        .flat_map(Entry::words)
        .collect();
    Ok((width, words))
}

#[cfg(test)]
mod tests {
    use super::*;
    use crate::Value;

    const BYTES: &[u8] = b"\x02\x80\0plot";

    fn body(kind: u64, start: u64, length: u64) -> Entry {
        Entry {
            state: State::Body,
            kind,
            start,
            length,
        }
    }

    fn learned(rows: &[Vec<Entry>]) -> Result<Vec<u64>, Refusal> {
        learn_signatures(BYTES, rows.iter().map(|row| &row[..]))
    }

    #[test]
    fn rows_are_padded_to_the_longest() {
        let (width, words) =
            groups([&[body(1, 0, 1)][..], &[body(9, 0, 0), body(21, 3, 4)][..]]).unwrap();
        assert_eq!(width, 2);
        assert_eq!(words, [0, 1, 0, 1, 3, 0, 0, 0, 0, 9, 0, 0, 0, 21, 3, 4]);
        assert_eq!(groups([]), Ok((1, vec![])));
        assert_eq!(groups([&[][..]]), Ok((1, vec![3, 0, 0, 0])));
    }

    #[test]
    fn a_value_decides_and_not_its_type() {
        let lost = Entry {
            state: State::Lost,
            kind: 0,
            start: 0,
            length: 0,
        };
        let types = |entry| learned(&[vec![entry]]);
        assert_eq!(types(body(1, 0, 1)), Ok(vec![1]));
        assert_eq!(types(body(2, 0, 2)), Ok(vec![2]));
        assert_eq!(types(body(1, 2, 1)), Ok(vec![8]));
        assert_eq!(types(body(9, 0, 0)), Ok(vec![8]));
        assert_eq!(types(body(21, 3, 4)), Ok(vec![21]));
        assert_eq!(types(body(12, 3, 0)), Ok(vec![12]));
        assert_eq!(types(lost), Ok(vec![0]));
    }

    #[test]
    fn the_commonest_is_learned_and_of_several_the_smallest() {
        let rows = [
            vec![body(1, 0, 1), body(0, 0, 0)],
            vec![body(8, 0, 0)],
            vec![body(21, 3, 4), body(21, 3, 4)],
            vec![body(1, 0, 1)],
        ];
        assert_eq!(learned(&rows), Ok(vec![1, 0]));
        assert_eq!(learned(&[]), Ok(vec![]));
    }

    #[test]
    fn more_rows_than_a_batch() {
        let record = [0x03, 0x01, 0x17, 0x2a, 0x68, 0x69, 0x70, 0x69, 0x6b];
        for rows in [1, 64, 65, 200] {
            let region = [&[0xff], &record.repeat(rows)[..], &[0xff; 3]].concat();
            let carved = carve_unallocated(&region, &[1, 23], 1000).unwrap();
            let records: Vec<_> = carved.collect();
            assert_eq!(records.len(), rows);
            for (i, record) in records.iter().enumerate() {
                assert_eq!(record.row.offset, 1001 + 9 * i as u64);
                assert_eq!(record.entries[1].read(&region), Ok(Value::Text("hipik")));
            }
        }
        let refused = |types: &[u64]| carve_unallocated(&[], types, 0).unwrap_err();
        assert_eq!(refused(&[]), Refusal::ColumnCount);
        assert_eq!(refused(&[1; MOST_COLUMNS + 1]), Refusal::ColumnCount);
    }

    #[test]
    fn a_padded_header_is_marked() {
        let marks = |region: &[u8]| -> Vec<bool> {
            let carved = carve_unallocated(region, &[1, 23], 0).unwrap();
            carved.map(|record| record.row.padded).collect()
        };
        assert_eq!(marks(b"\x03\x01\x17*hipik"), [false]);
        assert_eq!(marks(b"\x80\x04\x01\x17*hipik"), [true]);
        assert_eq!(marks(b"\x04\x01\x80\x17*hipik"), [true]);
    }

    #[test]
    fn refusals() {
        assert_eq!(learned(&[vec![body(1, 7, 1)]]), Err(Refusal::Malformed));
        assert_eq!(
            learned(&[vec![body(0, 0, 0); MOST_COLUMNS + 1]]),
            Err(Refusal::ColumnCount)
        );
        assert_eq!(
            learned(&vec![vec![body(0, 0, 0)]; MOST_LEARNED + 1]),
            Err(Refusal::TooLarge)
        );
        assert_eq!(
            learned(&vec![vec![body(0, 0, 0)]; MOST_LEARNED]),
            Ok(vec![0])
        );
    }
}
