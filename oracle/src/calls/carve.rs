//! A freed block in three modes.

use super::sheet::{same_rows, Header, Lent, Row, Said, Sheet, FREELIST};
use super::{all, held, Given};
use crate::case::{Answer, Case};
use crate::rules::carve::{rows, COLUMNS_ONLY, FIRST_COLUMN_MISSING, NORMAL};
use crate::rules::limits::{room, Limits};
use crate::rules::walk::End;
use given::carver::{carve_freeblock, CarveMatch, CarveMode};

pub fn modes(limits: &Limits, case: &Case) -> Answer {
    let (block, base, columns) = (&case.slices[0], case.numbers[0], case.numbers[1]);
    if let Some(number) = limits.columns_refusal(block, columns, base) {
        return Answer::refused(number, 1, 2);
    }
    let mut sheet = Sheet::new(case.lists[0], case.lists[1], columns as usize);
    let whole = rows(limits, block, columns as usize).into_iter().all(|carved| {
        let row = Row {
            offset: base + carved.at as u64,
            consumed: carved.consumed as u64,
            id: None,
            source: FREELIST,
            percent: 0,
            confidence: carved.confidence,
            mode: carved.mode,
            padded: carved.padded,
        };
        sheet.put(&row, &carved.entries)
    });
    sheet.answer(if whole { End::Through } else { End::NoRoom }, Vec::new())
}

fn said(found: CarveMatch, columns: usize) -> Said {
    let (mode, header) = match found.mode {
        CarveMode::Normal => (NORMAL, Header::UpTo(columns)),
        CarveMode::ColumnsOnly => (COLUMNS_ONLY, Header::Bare(columns)),
        CarveMode::FirstColMissing => (FIRST_COLUMN_MISSING, Header::Lost(columns - 1)),
    };
    Said { record: found.record, mode, header }
}

pub fn given_modes(case: &Case, answer: &Answer) -> Given {
    if !matches!(answer.number, 0 | 9) {
        return Given::NotAsked;
    }
    let (block, base, width) = (&case.slices[0], case.numbers[0], case.numbers[1] as usize);
    let rust = carve_freeblock(block, base as usize, "", width);
    let offsets = all(rust.iter().map(|found| held("both offsets", found.record.offset, found.offset as u64)));
    let rows: Vec<Said> = rust.into_iter().map(|found| said(found, width)).collect();
    let room = room(case.lists[0], case.lists[1], width);
    all([offsets, same_rows(&Lent { bytes: block, base, room, width }, &rows, answer)])
}
