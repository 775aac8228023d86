//! The lists that are lent to a call. They grow up to a limit, and never past it.

use crate::door::{self, ENTRY_WORDS, ROW_WORDS};
use crate::{Entry, Record, Refusal, Row, MOST_COLUMNS};

/// What a call's lists hold at first, in rows.
const FIRST_ROOM: usize = 64;

/// How many times larger lists become that were too small.
const GROWTH: usize = 8;

/// Rows and their column entries, as words.
#[derive(Debug)]
pub(crate) struct Lists {
    pub(crate) rows: Vec<u64>,
    pub(crate) cols: Vec<u64>,
    columns: usize,
}

impl Lists {
    /// Room for so many rows.
    pub(crate) fn new(room: usize, columns: usize) -> Result<Lists, Refusal> {
        // More columns are refused, whatever the lists.
        let columns = columns.min(MOST_COLUMNS);
        Ok(Lists {
            rows: zeros(room * ROW_WORDS)?,
            cols: zeros(room * columns * ENTRY_WORDS)?,
            columns,
        })
    }

    /// As many as a call is lent at first, if `memory` bytes take them.
    pub(crate) fn first(columns: usize, memory: usize) -> Result<Lists, Refusal> {
        Lists::new(FIRST_ROOM.min(most(columns, memory)), columns)
    }

    /// Makes the call with lists that are made larger until they take its rows; answers how many there are.
    pub(crate) fn fill(
        &mut self,
        memory: usize,
        mut call: impl FnMut(&mut [u64], &mut [u64]) -> door::Answer<1>,
    ) -> Result<usize, Refusal> {
        loop {
            let (number, [written]) = call(&mut self.rows, &mut self.cols);
            match Refusal::of(number) {
                Some(Refusal::NoRoom) => self.grow(memory)?,
                Some(refusal) => return Err(refusal),
                None => return Ok(written as usize),
            }
        }
    }

    fn grow(&mut self, memory: usize) -> Result<(), Refusal> {
        let (old, columns) = (self.rows.len() / ROW_WORDS, self.columns);
        let room = (old * GROWTH).max(FIRST_ROOM).min(most(columns, memory));
        if room <= old {
            return Err(Refusal::NoRoom);
        }
        // The old lists go first: both at once would pass the limit.
        (self.rows, self.cols) = (Vec::new(), Vec::new());
        *self = Lists::new(room, columns)?;
        Ok(())
    }

    /// The row `i` of a call whose entries lie in `region`.
    pub(crate) fn record<'a>(&self, i: usize, region: &'a [u8]) -> Record<'a> {
        let width = self.columns * ENTRY_WORDS;
        let entries = self.cols[i * width..][..width]
            .chunks_exact(ENTRY_WORDS)
            .map(Entry::of)
            .collect();
        Record::new(
            Row::of(&self.rows[i * ROW_WORDS..][..ROW_WORDS]),
            entries,
            region,
        )
    }
}

/// The bytes that the lists take for a row of so many columns.
pub(crate) fn row_bytes(columns: usize) -> usize {
    (ROW_WORDS + ENTRY_WORDS * columns) * size_of::<u64>()
}

/// The most rows of so many columns whose lists take no more than `memory` bytes.
pub(crate) fn most(columns: usize, memory: usize) -> usize {
    memory / row_bytes(columns.min(MOST_COLUMNS))
}

/// So many words of 0; [`Refusal::NoRoom`] where the machine does not have the memory.
pub(crate) fn zeros(words: usize) -> Result<Vec<u64>, Refusal> {
    // Asked for first by a call that may fail; `vec!` may not, but takes no memory for what is never written.
    let mut asked: Vec<u64> = Vec::new();
    asked
        .try_reserve_exact(words)
        .map_err(|_| Refusal::NoRoom)?;
    drop(asked);
    Ok(vec![0; words])
}

/// The rows that one call found. They stay in the call's lists, and a [`Record`] is made of each as it is taken.
#[derive(Debug)]
pub struct Records<'a> {
    lists: Lists,
    filled: usize,
    given: usize,
    region: &'a [u8],
}

impl<'a> Records<'a> {
    /// All rows of a call over `region` with so many columns, within `memory` bytes.
    pub(crate) fn of(
        columns: usize,
        memory: usize,
        region: &'a [u8],
        call: impl FnMut(&mut [u64], &mut [u64]) -> door::Answer<1>,
    ) -> Result<Records<'a>, Refusal> {
        let mut lists = Lists::first(columns, memory)?;
        let filled = lists.fill(memory, call)?;
        Ok(Records {
            lists,
            filled,
            given: 0,
            region,
        })
    }
}

impl<'a> Iterator for Records<'a> {
    type Item = Record<'a>;

    fn next(&mut self) -> Option<Record<'a>> {
        if self.given == self.filled {
            return None;
        }
        self.given += 1;
        Some(self.lists.record(self.given - 1, self.region))
    }

    fn size_hint(&self) -> (usize, Option<usize>) {
        let left = self.filled - self.given;
        (left, Some(left))
    }
}

impl ExactSizeIterator for Records<'_> {}

#[cfg(test)]
mod tests {
    use super::*;

    /// A call that finds so many rows of three columns.
    fn finds(rows: usize) -> impl FnMut(&mut [u64], &mut [u64]) -> door::Answer<1> {
        move |lent, cols| {
            assert_eq!(lent.len() / ROW_WORDS, cols.len() / (3 * ENTRY_WORDS));
            match lent.len() / ROW_WORDS {
                room if room < rows => (9, [room as u64]),
                _ => (0, [rows as u64]),
            }
        }
    }

    #[test]
    fn lists_grow_up_to_the_limit_and_no_further() {
        let filled = |rows, room| {
            let memory = room * row_bytes(3) + row_bytes(3) - 1;
            let mut lists = Lists::first(3, memory).unwrap();
            let filled = lists.fill(memory, finds(rows));
            assert!(lists.rows.len() <= room * ROW_WORDS);
            filled
        };
        for (rows, room) in [(0, 0), (1, 1), (64, 64), (65, 65), (700, 700), (700, 9000)] {
            assert_eq!(filled(rows, room), Ok(rows), "{rows} in {room}");
        }
        for (rows, room) in [(1, 0), (2, 1), (65, 64), (513, 512), (701, 700)] {
            assert_eq!(filled(rows, room), Err(Refusal::NoRoom), "{rows} in {room}");
        }
    }

    #[test]
    fn memory_that_is_not_there_is_no_room() {
        assert_eq!(zeros(usize::MAX / 16).unwrap_err(), Refusal::NoRoom);
    }

    #[test]
    fn columns_that_are_refused_take_no_memory() {
        let lists = Lists::new(1, usize::MAX).unwrap();
        assert_eq!(lists.cols.len(), MOST_COLUMNS * ENTRY_WORDS);
    }
}
