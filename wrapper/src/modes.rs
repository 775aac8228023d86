//! The three modes.

use crate::batches::{Call, Carved};
use crate::Refusal;

/// The rows of a block of bytes, for a table of which only the number of columns is known; `base` is where the block lies in
/// its file. With no hints nearly any bytes make a row: its [`Mode`](crate::Mode) says how it was read, and the confidence is
/// that of the mode, 0.8, 0.5 or 0.3. `phs_carve_freeblock` in `include/phsarodil.h` says what each mode reads.
///
/// # Errors
///
/// [`Refusal::ColumnCount`], [`Refusal::TooLarge`] and [`Refusal::BaseTooFar`].
pub fn carve_freeblock(bytes: &[u8], base: u64, columns: usize) -> Result<Carved<'_>, Refusal> {
    Carved::new(Call::Freeblock(columns), bytes, base)
}

#[cfg(test)]
mod tests {
    use super::*;
    use crate::{Mode, Record, Source, State, Value, LARGEST_BASE, MOST_COLUMNS};

    const HIPIK: [u8; 9] = [0x03, 0x01, 0x17, 0x2a, 0x68, 0x69, 0x70, 0x69, 0x6b];

    fn carved(bytes: &[u8], base: u64, columns: usize) -> Result<Vec<Record<'_>>, Refusal> {
        carve_freeblock(bytes, base, columns).map(Iterator::collect)
    }

    #[test]
    fn rows_with_their_headers_stand_one_behind_the_other() {
        let block = [&HIPIK[..], &HIPIK[..], &[0xff]].concat();
        let records = carved(&block, 100, 5).unwrap();
        assert_eq!(records.len(), 2);
        assert_eq!([records[0].row.offset, records[1].row.offset], [100, 109]);
        for record in &records {
            assert_eq!(record.row.mode, Mode::Normal);
            assert_eq!(record.row.source, Source::Freelist);
            assert_eq!(record.row.confidence, 0.8);
            assert_eq!(
                record.values().unwrap(),
                [Value::Integer(42), Value::Text("hipik")]
            );
        }
    }

    #[test]
    fn padded_numbers_are_marked() {
        let marks = |block: &[u8], columns| -> Vec<(Mode, bool)> {
            let records = carved(block, 0, columns).unwrap();
            let marks = records
                .iter()
                .map(|record| (record.row.mode, record.row.padded));
            marks.collect()
        };
        assert_eq!(marks(&HIPIK, 2), [(Mode::Normal, false)]);
        let length = [&[0x80, 0x04], &HIPIK[1..]].concat();
        assert_eq!(marks(&length, 2), [(Mode::Normal, true)]);
        let types = [&[0x04, 0x01, 0x80], &HIPIK[2..]].concat();
        assert_eq!(marks(&types, 2), [(Mode::Normal, true)]);
        // The second type is not read.
        assert_eq!(marks(&types[..5], 1), [(Mode::Normal, false)]);
        // Without a header length: the first byte is a type here.
        assert_eq!(
            marks(&types[1..], 2),
            [(Mode::ColumnsOnly, true), (Mode::FirstColMissing, false)]
        );
        // The fifth byte pads a type, and is a part of one that needs its six bytes.
        let lost = [0xff, 0x80, 0x80, 0x80, 0x80, 0x01, 0x2a];
        assert_eq!(
            marks(&lost, 2),
            [(Mode::ColumnsOnly, false), (Mode::FirstColMissing, true)]
        );
    }

    #[test]
    fn more_rows_than_a_batch() {
        for rows in [63, 64, 65, 128, 129, 300] {
            // What is left behind the last row has a reading in the other modes, which no row may come of.
            let block = [&HIPIK.repeat(rows)[..], &[0xff, 1, 1, 1, 1, 1, 1, 1]].concat();
            let records = carved(&block, 100, 2).unwrap();
            assert_eq!(records.len(), rows);
            for (i, record) in records.iter().enumerate() {
                assert_eq!(record.row.offset, 100 + 9 * i as u64);
                assert_eq!(record.row.mode, Mode::Normal);
                assert_eq!(record.entries[1].read(&block), Ok(Value::Text("hipik")));
            }
        }
    }

    #[test]
    fn without_a_header_length_two_readings_are_given() {
        let records = carved(&HIPIK[1..], 0, 2).unwrap();
        assert_eq!(records.len(), 2);
        assert_eq!(records[0].row.mode, Mode::ColumnsOnly);
        assert_eq!(
            (records[0].row.consumed, records[0].row.confidence),
            (8, 0.5)
        );
        assert_eq!(
            records[0].values().unwrap(),
            [Value::Integer(42), Value::Text("hipik")]
        );
        // The fifth byte is the type of a text of 46 bytes.
        assert_eq!(records[1].row.mode, Mode::FirstColMissing);
        assert_eq!(
            (records[1].row.consumed, records[1].row.confidence),
            (5, 0.3)
        );
        assert_eq!(
            [records[1].entries[0].state, records[1].entries[1].state],
            [State::Lost, State::Unfit]
        );
        assert_eq!(records[1].values().unwrap(), [Value::Null, Value::Null]);
    }

    #[test]
    fn refusals() {
        assert_eq!(carved(&[], 0, 1), Ok(vec![]));
        assert_eq!(carved(&HIPIK, 0, 0), Err(Refusal::ColumnCount));
        for columns in [MOST_COLUMNS + 1, usize::MAX] {
            assert_eq!(carved(&HIPIK, 0, columns), Err(Refusal::ColumnCount));
        }
        assert_eq!(
            carved(&HIPIK, LARGEST_BASE + 1, 2),
            Err(Refusal::BaseTooFar)
        );
    }
}
