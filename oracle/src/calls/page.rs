//! A page by its number, and the leaf walk.

use super::{all, held, rebuilding, Given};
use crate::case::{Answer, Case};
use crate::rules::limits::{first, Limits};
use crate::rules::page::{page, whole_pages};
use crate::rules::walk::{walk, End};
use given::btree::get_page_data;
use given::freeblock::collect_leaf_pages;

pub fn data(limits: &Limits, case: &Case) -> Answer {
    let (db, size, number) = (&case.slices[0], case.numbers[0], case.numbers[1]);
    let found = page(limits, db, size, number);
    let refused = first(&[(3, db.len() > limits.region), (5, !limits.page_size(size)), (6, found.is_none())]);
    match found.filter(|_| refused.is_none()) {
        Some(page) => Answer::new(0, vec![page.start as u64, size, page.header as u64], Vec::new()),
        None => Answer::refused(refused.unwrap_or(0), 3, 0),
    }
}

/// A number as the Rust has it for pages.
pub fn page_number(number: u64) -> Option<u32> {
    u32::try_from(number).ok()
}

pub fn given_data(case: &Case, answer: &Answer) -> Given {
    let db = &case.slices[0];
    let asked = matches!(answer.number, 0 | 6);
    let Some(number) = page_number(case.numbers[1]).filter(|_| asked) else {
        return Given::NotAsked;
    };
    match get_page_data(db, number, case.numbers[0] as usize) {
        None => held("no page", 6, answer.number),
        Some((page, header)) => {
            let start = page.as_ptr() as usize - db.as_ptr() as usize;
            let words = [start as u64, page.len() as u64, header as u64];
            held("page", (0, &words[..]), (answer.number, &answer.out))
        }
    }
}

/// Flags and stack after a walk, whatever its end.
pub fn cleared(case: &Case) -> [Vec<u64>; 2] {
    [vec![0; case.lists[0]], vec![0; case.lists[1]]]
}

/// Whether a walk has a flag for each page; if not it ends before its first push.
pub fn enough_flags(case: &Case) -> bool {
    let (_, numbers) = rebuilding(case);
    case.lists[0] as u64 >= whole_pages(&case.slices[0], numbers[0])
}

pub fn refusal_of(end: End) -> u64 {
    match end {
        End::Through => 0,
        End::NoSpace => 8,
        End::NoRoom => 9,
    }
}

pub fn leaves(limits: &Limits, case: &Case) -> Answer {
    let (db, size, root) = (&case.slices[0], case.numbers[0], case.numbers[1]);
    if let Some(number) = first(&[(3, db.len() > limits.region), (5, !limits.page_size(size))]) {
        return Answer::refused(number, 1, 3);
    }
    let mut leaves = Vec::new();
    let mut end = End::NoSpace;
    if enough_flags(case) {
        (end, _) = walk(limits, db, size, root, case.lists[1], |number, _| {
            let fits = leaves.len() < case.lists[2];
            leaves.extend(fits.then_some(number));
            fits
        });
    }
    let [flags, stack] = cleared(case);
    Answer::new(refusal_of(end), vec![leaves.len() as u64], vec![flags, stack, leaves])
}

/// Whether the Rust has something to say of a walk: it has no refusals before the work.
pub fn walked(case: &Case, answer: &Answer) -> bool {
    matches!(answer.number, 0 | 8 | 9) && enough_flags(case)
}

/// The Rust's stack has no end: where ours is full, what was written must be the first of the Rust's list.
pub fn same_end(found: usize, room: usize, answer: &Answer) -> Given {
    let written = answer.out[0] as usize;
    if answer.number == 8 {
        return held("no more than the Rust finds", true, written <= found.min(room));
    }
    all([held("refusal", if found > room { 9 } else { 0 }, answer.number), held("written", found.min(room), written)])
}

pub fn given_leaves(case: &Case, answer: &Answer) -> Given {
    let Some(root) = page_number(case.numbers[1]).filter(|_| walked(case, answer)) else {
        return Given::NotAsked;
    };
    let rust = collect_leaf_pages(&case.slices[0], case.numbers[0] as u32, root);
    let end = same_end(rust.len(), case.lists[2], answer);
    if end != Given::Agrees {
        return end;
    }
    let first: Vec<u64> = rust.iter().take(answer.out[0] as usize).map(|&p| u64::from(p)).collect();
    held("leaves", &first, &answer.lists[2])
}
