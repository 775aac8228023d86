//! Tables of as many columns as there may be and of one more, in each call that is not on free space; and as many tables as a walk
//! may have, and one more.

use crate::calls::{GAPS, LEARN, MODES, RECOVER, RECOVER_PAGE, RECOVER_SLICE, STATEMENT, UNALLOC};
use crate::case::Case;
use crate::cases::databases::leaf;
use crate::cases::records::header;
use crate::cases::regions::{attempt, lists, scan};
use crate::rules::limits::EXACT;
use crate::runner::Sink;

pub fn all(sink: &mut dyn Sink) {
    columns(sink);
    learned(sink);
    many_tables(sink);
}

fn columns(sink: &mut dyn Sink) {
    for columns in [127, 510, 511] {
        let row = header(&vec![(8, 1); columns], 1);
        let hints = vec![0; columns];
        scan(sink, &[&row[..], &[0, 0]].concat(), &hints, 1);
        attempt(sink, &row, &hints, 0);
        let mut page = vec![0; 1024];
        leaf(&mut page, 100, &[row.clone()]);
        let room = lists(usize::from(columns < 511), columns);
        sink.put(Case::new(RECOVER_SLICE, &[100, 0], &[&page, &hints], &room));
        sink.put(Case::new(RECOVER_PAGE, &[1024, 1], &[&page, &hints], &room));
        for from in [0, 1] {
            sink.put(Case::new(MODES, &[0, columns as u64], &[&row[from..]], &room));
        }
        let statement = format!("({})", vec!["a"; columns].join(","));
        sink.put(Case::new(STATEMENT, &[], &[statement.as_bytes()], &[columns]));
        sink.put(Case::new(LEARN, &[columns as u64], &[&[7]], &[1]).with_words(&[&[]]));
        let entries = [0, 1, 0, 1].repeat(columns);
        sink.put(Case::new(LEARN, &[columns as u64], &[&[7]], &[columns]).with_words(&[&entries]));
    }
}

fn learned(sink: &mut dyn Sink) {
    for columns in [127, 300, 510, 511] {
        let types = vec![9; columns];
        for read in [1, columns] {
            let mut region = header(&vec![(8, 1); read], 1);
            region.resize(columns + 2, 0);
            sink.put(Case::new(UNALLOC, &[0], &[&region], &lists(1, columns)).with_words(&[&types]));
        }
    }
}

fn many_tables(sink: &mut dyn Sink) {
    for tables in [1024, 1025] {
        let (hints, ones) = (vec![0; tables], vec![1; tables]);
        let walk = |call: u8, numbers: &[u64]| {
            Case::new(call, numbers, &[&[], &hints], &[0, 1, 0, 0]).with_words(&[&ones, &ones])
        };
        sink.put(walk(RECOVER, &[512]));
        sink.put(walk(GAPS, &[EXACT, 512]));
    }
}
