//! Section 5, 5.4 and 5.5: confidences and percents.

use super::making::*;
use super::Worked;

pub fn all() -> Vec<Worked> {
    let shares = [(1, 1), (5, 6), (53, 100), (1, 3), (1, 100), (1, 126), (1, 127), (1, 510)];
    let mut all = vec![heading("5.4, 5.5 Shares in the gap of a page, with their percents")];
    all.extend(shares.map(|(suited, columns)| in_a_gap(suited, columns)));
    all.push(heading("5.4 Shares in a freed block, times 0.6"));
    all.extend(shares.map(|(suited, columns)| freed(suited, columns)));
    all.push(heading("5.4, 5.5 Shares with a rebuilt header, times 0.9, with their percents"));
    all.extend(shares.map(|(suited, columns)| rebuilt(suited, columns)));
    all
}

fn name(suited: usize, columns: usize) -> String {
    format!("{suited} of {columns}")
}

/// Of so many columns so many are integers, and texts the others.
fn hints(suited: usize, columns: usize) -> Vec<u8> {
    joined(&[&times(INTEGER, suited), &times(TEXT, columns - suited)])
}

/// A record whose columns are all the integer 0.
fn record(columns: usize) -> Vec<u8> {
    let header = match columns {
        ..=126 => vec![columns as u8 + 1],
        _ => vec![0x80 | ((columns + 2) >> 7) as u8, (columns + 2) as u8 & 0x7F],
    };
    joined(&[&header, &times(8, columns)])
}

/// The one-byte mode takes no more columns.
fn code(columns: usize) -> u64 {
    if columns <= 126 {
        ONE_BYTE
    } else {
        EXACT
    }
}

fn in_a_gap(suited: usize, columns: usize) -> Worked {
    // A byte of zero behind the row, since a scan leaves out the last two.
    let gap = joined(&[&record(columns), &"00"]);
    let content = 8 + gap.len();
    let header = [13, 0, 0, 0, 0, (content >> 8) as u8, content as u8, 0];
    let page = joined(&[&header.to_vec(), &gap]);
    gap_slice(name(suited, columns), code(columns), page, [0, 0], hints(suited, columns), 1)
}

fn freed(suited: usize, columns: usize) -> Worked {
    let record = record(columns);
    let size = 4 + record.len();
    let page = joined(&[&"0d 0008 0000 0000 00 0000", &vec![(size >> 8) as u8, size as u8], &record]);
    recover_slice(name(suited, columns), page, 0, 0, hints(suited, columns), 1)
}

fn rebuilt(suited: usize, columns: usize) -> Worked {
    block(name(suited, columns), code(columns), times(8, columns), 0, hints(suited, columns), 1)
}
