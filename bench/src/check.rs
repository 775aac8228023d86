//! Whether both sides' answers are equal.

use crate::calls::*;
use crate::calls::{self, Given};
use crate::case::Case;
use crate::rules::limits::{Limits, WORDS_PER_ENTRY};
use crate::work::{Prepared, Work};

const DIFFERENT: i32 = 1;

/// Prints how much was compared and how many rows, places or the like were found; or what differs.
pub fn print(work: &Work) -> i32 {
    match differs(work) {
        Ok(found) => {
            let (size, unit) = size(work);
            println!("equal: {size} {unit} {found}");
            0
        }
        Err(why) => {
            println!("different: {why}");
            DIFFERENT
        }
    }
}

/// What a cost is divided by: the bytes lent, or what else there is more or less of.
fn size(work: &Work) -> (u64, &'static str) {
    match work.case.call {
        LEARN => (work.case.words[0].len() as u64 / WORDS_PER_ENTRY as u64, "values"),
        READ_VARINT | BODY_LENGTH | DECODE | READ_ENTRY | COMPATIBLE | PAGE_DATA => (work.calls(), "calls"),
        MODES if work.calls() > 1 => (work.calls(), "calls"),
        _ => (work.case.slices[0].len() as u64, "bytes"),
    }
}

fn differs(work: &Work) -> Result<u64, String> {
    let mut prepared = Prepared::new(work);
    let mut case = work.case.clone();
    let mut found = 0;
    for value in work.values.clone() {
        work.at(value, &mut case);
        found += one(&mut prepared, &case, value).map_err(|why| format!("at {value}: {why}"))?;
    }
    Ok(found)
}

fn one(prepared: &mut Prepared, case: &Case, value: u64) -> Result<u64, String> {
    let call = calls::of(case);
    let ours = prepared.ours.answer(case, &mut prepared.lent, value, width(case));
    let given = match prepared.rust {
        Some(_) => (call.given)(case, &ours),
        None if ours == (call.answer)(&Limits::of_the_rules(), case) => Given::Agrees,
        None => Given::Differs("ours is not as the oracle has it".into()),
    };
    match given {
        Given::Agrees if ours.number == 0 => Ok(if call.lists.is_empty() { 0 } else { ours.out[0] }),
        Given::Agrees => Err(format!("refusal {}: nothing to measure", ours.number)),
        Given::Differs(why) => Err(why.replace("the rules", "ours")),
        Given::NotAsked => Err("the Rust has no answer to compare".into()),
    }
}

/// The entries of a row's group.
fn width(case: &Case) -> usize {
    match case.call {
        MODES => case.numbers[1] as usize,
        UNALLOC => case.words[0].len(),
        RECOVER | GAPS => case.words[1].iter().max().map_or(0, |&n| n as usize),
        LEARN => 0,
        _ => case.slices.get(1).map_or(0, Vec::len),
    }
}
