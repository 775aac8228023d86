//! Headers rebuilt exactly: where the bodies start, types up to the most bytes and past them, columns up to the most of each
//! way, codes that name none, and a cell's place.

use crate::calls::{BLOCK, GAPS, GAP_PAGE, GAP_SLICE};
use crate::case::Case;
use crate::cases::blocks::block;
use crate::cases::databases::leaf;
use crate::cases::gaps::each_way;
use crate::cases::limits::spread;
use crate::cases::rebuilding::bare;
use crate::cases::records::header;
use crate::cases::regions::lists;
use crate::rules::limits::EXACT;
use crate::runner::Sink;

pub fn all(sink: &mut dyn Sink) {
    wide_types(sink);
    notes(sink);
    ends(sink);
    type_bytes(sink);
    columns(sink);
    codes(sink);
    at_cells(sink);
    pages(sink);
}

fn exact(sink: &mut dyn Sink, payload: &[u8], hints: &[u8], rows: usize) {
    sink.put(Case::new(BLOCK, &[EXACT, 0], &[payload, hints], &lists(rows, hints.len())));
}

/// A type of more than one byte in each place of three, before bodies that tell by their lengths and places where they start.
fn wide_types(sink: &mut dyn Sink) {
    for wide in [2, 3, 9] {
        for place in 0..3 {
            let mut types = [(1, 1), (15, 1), (2, 1)];
            types[place].1 = wide;
            exact(sink, &bare(&types), &[0, 2, 4], 4);
        }
    }
    for types in [[(1, 2), (15, 2)], [(15, 2), (1, 3)]] {
        exact(sink, &bare(&types), &[5, 2], 4);
    }
}

/// Notes of as many bytes as a type of one byte takes, and of one more, first, in the middle and last, each way.
fn notes(sink: &mut dyn Sink) {
    for (note, wide) in [(57, 1), (58, 2)] {
        let text = (13 + 2 * note, wide);
        for types in [[text, (1, 1), (7, 1)], [(1, 1), text, (7, 1)], [(1, 1), (7, 1), text]] {
            block(sink, &bare(&types), &[5, 5, 2], 3);
        }
    }
}

/// Types that run off, and bodies that do.
fn ends(sink: &mut dyn Sink) {
    let payload = bare(&[(1, 1), (1, 2), (15, 2)]);
    for length in 0..=payload.len() {
        exact(sink, &payload[..length], &[0, 0, 2], 3);
    }
}

/// Types in just so many bytes, the wide ones last; few, since each start reads as many types as there are.
fn type_bytes(sink: &mut dyn Sink) {
    for (columns, bytes) in [(14, 126), (15, 127), (57, 510), (57, 511), (510, 510), (510, 511)] {
        let widths = spread(columns, bytes).unwrap_or_default();
        let types: Vec<(u64, usize)> = widths.into_iter().rev().map(|wide| (9, wide)).collect();
        exact(sink, &bare(&types), &vec![0; columns], 1);
    }
}

/// As many columns as each way takes, and one more.
fn columns(sink: &mut dyn Sink) {
    for columns in [126, 127, 511] {
        let hints = vec![0; columns];
        block(sink, &vec![8; columns], &hints, usize::from(columns < 511));
        let walk = Case::new(GAPS, &[512], &[&[], &hints], &[0, 1, 0, 0]);
        each_way(sink, walk.with_words(&[&[1], &[columns as u64]]));
    }
}

/// Codes of no way: a count that is bad comes before them, and all else behind.
fn codes(sink: &mut dyn Sink) {
    let mut page = vec![0; 512];
    leaf(&mut page, 0, &[vec![2, 8, 2, 9]]);
    let room = lists(1, 1);
    for code in [3, (1 << 32) + 2, 1 << 63, u64::MAX] {
        for (columns, base, size) in [(1, 0, 512), (0, 0, 512), (127, 1 << 60, 0), (511, 0, 0)] {
            let hints = vec![0; columns];
            sink.put(Case::new(BLOCK, &[code, base], &[&[2, 8, 2, 9], &hints], &room));
            sink.put(Case::new(GAP_SLICE, &[code, 0, base], &[&page[..20], &hints], &room));
            sink.put(Case::new(GAP_PAGE, &[code, size, 1], &[&page, &hints], &room));
        }
    }
}

/// Where a cell is a row, no rebuilt one stands at its record; where it is none, one may. Each way.
fn at_cells(sink: &mut dyn Sink) {
    for types in [[(8, 1), (9, 1)], [(8, 2), (9, 1)], [(8, 1), (9, 2)]] {
        let record = header(&types, 1);
        for length in [record.len() - 1, record.len()] {
            block(sink, &[&[length as u8, 7][..], &record, &[8, 8]].concat(), &[0, 5], 8);
        }
    }
}

/// A gap with a whole row, and a block with one whose header length is lost, on a slice and by number, each way.
fn pages(sink: &mut dyn Sink) {
    for types in [&[(1, 1), (15, 2)][..], &[(8, 1); 127]] {
        let mut page = vec![0; 512];
        leaf(&mut page, 0, &[[&[0][..], &bare(types)].concat()]);
        let whole = [header(types, 1), vec![7; 2]].concat();
        let content = 512 - 6;
        page[content - whole.len()..content].copy_from_slice(&whole);
        page[5..7].copy_from_slice(&(content as u16).to_be_bytes());
        // The gap begins behind the block.
        page[4] = 80;
        let hints = vec![0; types.len()];
        let room = lists(3, types.len());
        each_way(sink, Case::new(GAP_SLICE, &[0, 1000], &[&page, &hints], &room));
        each_way(sink, Case::new(GAP_PAGE, &[512, 2], &[&page.repeat(2), &hints], &room));
    }
}
