//! Where the given Rust panics, as a rule and as a fixed list. Each case of either must make it panic, with our side
//! answering by the rules; a panic anywhere else is a difference.

use crate::calls::forms::lent_tables;
use crate::calls::{rebuilding, BLOCK, DECODE, GAPS, GAP_PAGE, GAP_SLICE, RECOVER_SLICE, STATEMENT};
use crate::case::Case;
use crate::cases::bytes::varint;
use crate::cases::chains::LAST_HEAD;
use crate::cases::databases::leaf;
use crate::cases::regions::lists;
use crate::compare::{against_ours, expected, Asked};
use crate::rules::gap::{each_cell, payloads};
use crate::rules::limits::{Limits, ONE_BYTE};
use crate::rules::page::{page, Page};
use crate::rules::value::body_length;
use crate::rules::walk::walk;
use crate::server::Server;
use crate::text;

/// The last header place that the gap's carver takes without a panic.
pub const LAST_GAP_HEAD: u64 = u64::MAX - 8;

/// Whether the Rust panics on a case, if it is asked.
pub fn foreseen(case: &Case) -> bool {
    let limits = &Limits::of_the_rules();
    let numbers = rebuilding(case).1;
    let (number, slice) = (|i: usize| numbers[i], |i: usize| &case.slices[i][..]);
    let far = |bytes: &[u8], hints: &[u8]| far_cell(limits, bytes, hints);
    let far_on = |page: &Page, hints: &[u8]| {
        payloads(limits, page.bytes, page.header).into_iter().any(|payload| far(&page.bytes[payload], hints))
    };
    match case.call {
        DECODE => number(0) != 1 && body_length(number(0)).is_some_and(|n| number(1).checked_add(n).is_none()),
        STATEMENT => {
            let (open, close) = (slice(0).iter().position(|&b| b == b'('), slice(0).iter().rposition(|&b| b == b')'));
            open.zip(close).is_some_and(|(open, close)| close < open)
        }
        RECOVER_SLICE => number(0) > LAST_HEAD,
        GAP_SLICE if number(0) > LAST_GAP_HEAD => true,
        // A length so far off begins with these.
        GAPS | GAP_PAGE | GAP_SLICE | BLOCK if !slice(0).windows(5).any(|w| w == [0xFF; 5]) => false,
        GAPS => lent_tables(case).into_iter().any(|(root, hints)| {
            let mut any = false;
            walk(limits, slice(0), number(0), root, usize::MAX, |_, page| {
                any |= far_on(page, hints);
                true
            });
            any
        }),
        GAP_PAGE => page(limits, slice(0), number(0), number(1)).is_some_and(|page| far_on(&page, slice(1))),
        GAP_SLICE => far_on(&Page { bytes: slice(0), start: 0, header: number(0) as usize }, slice(1)),
        BLOCK => far(slice(0), slice(1)),
        _ => false,
    }
}

/// Whether a cell is looked at whose payload ends behind the last place of all: the Rust adds its length to its start.
fn far_cell(limits: &Limits, block: &[u8], hints: &[u8]) -> bool {
    let mut far = false;
    each_cell(limits, block, hints, |cell, _| far |= (cell.start as u64).checked_add(cell.length).is_none());
    far
}

/// A body whose end passes the last place of all: the Rust adds, ours compares with what is left.
fn decoding() -> Vec<Case> {
    let mut cases = Vec::new();
    let mut at = |kind: u64, offset: u64| cases.push(Case::new(DECODE, &[kind, offset], &[&[]], &[]));
    for (kind, length) in [(2, 2), (3, 3), (4, 4), (5, 6), (6, 8), (7, 8), (14, 1), (15, 1), (112, 50)] {
        at(kind, u64::MAX - length + 1);
        at(kind, u64::MAX);
    }
    // The longest blob and text, 2^63 - 7 bytes each.
    at(u64::MAX - 1, (1 << 63) + 7);
    at(u64::MAX, (1 << 63) + 7);
    at(u64::MAX, u64::MAX);
    cases
}

/// Statements whose last `)` stands before their first `(`.
fn statements() -> Vec<Case> {
    let texts: [&str; 6] = [")(", "a)b(c", "))((", ") (a TEXT, b INTEGER", "CREATE TABLE t) (a TEXT", ")\n("];
    let lent = |text: &str| Case::new(STATEMENT, &[], &[text.as_bytes()], &[4]);
    texts.iter().map(|t| lent(t)).collect()
}

/// A b-tree header so far off that the Rust's sum of its place and its length passes the last place of all.
pub fn of_pages() -> Vec<Case> {
    let lent = |head: u64| Case::new(RECOVER_SLICE, &[head, 0], &[&[2; 16], &[0]], &lists(1, 1));
    (LAST_HEAD + 1..=u64::MAX).map(lent).collect()
}

/// Cells whose payload ends behind the last place of all, by one and by as much as there is, in each call that has cells;
/// and b-tree headers too far off.
fn of_gaps() -> Vec<Case> {
    let mut cases = Vec::new();
    let room = lists(10, 1);
    for (length, before) in [(u64::MAX, 0), (u64::MAX - 9, 0), (u64::MAX - 9, 1), (u64::MAX - 255, 250)] {
        let block = [vec![0; before], varint(length, 9), vec![7, 2, 8]].concat();
        let mut page = vec![0; 512];
        leaf(&mut page, 0, &[vec![2, 8], block.clone()]);
        cases.push(Case::new(BLOCK, &[ONE_BYTE, 0], &[&block, &[0]], &room));
        cases.push(Case::new(GAP_SLICE, &[ONE_BYTE, 0, 0], &[&page, &[0]], &room));
        cases.push(Case::new(GAP_PAGE, &[ONE_BYTE, 512, 2], &[&page.repeat(2), &[0]], &room));
        let tables = Case::new(GAPS, &[ONE_BYTE, 512], &[&page.repeat(2), &[0]], &[2, 1, room[0], room[1]]);
        cases.push(tables.with_words(&[&[2], &[1]]));
    }
    let far = |head: u64| Case::new(GAP_SLICE, &[ONE_BYTE, head, 0], &[&[2; 16], &[0]], &lists(1, 1));
    cases.extend((LAST_GAP_HEAD + 1..=u64::MAX).map(far));
    cases
}

pub fn list() -> Vec<Case> {
    let mut all = decoding();
    all.extend(statements());
    all
}

/// Checks the list. Answers how many cases it has and how many of them our side answered, or what is wrong.
pub fn check(limits: &Limits, server: &mut Server, there: &[bool]) -> Result<(usize, usize), String> {
    let cases = [list(), of_pages(), of_gaps()].concat();
    let mut answered = 0;
    for case in &cases {
        let (answer, asked) = expected(limits, case);
        if asked != Asked::Panicked || !foreseen(case) {
            return Err(format!("the Rust does not panic, or not by the rule, on {}", text::line(case)));
        }
        if !there[case.call as usize - 1] {
            continue;
        }
        answered += 1;
        let ours = server.ask(case).map_err(|e| format!("the server died: {e}"))?;
        if let Some(why) = against_ours(case, &answer, &ours) {
            return Err(format!("{why}, where the Rust panics: {}", text::line(case)));
        }
    }
    Ok((cases.len(), answered))
}
