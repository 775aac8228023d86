//! Whether the three agree on a case: the rules, the given Rust, and our side.

use crate::calls::{self, Given};
use crate::case::{Answer, Case};
use crate::panics::foreseen;
use crate::rules::limits::Limits;
use crate::server::Left;
use std::panic::{catch_unwind, AssertUnwindSafe};

/// What the Rust did with a case.
#[derive(Clone, Debug, PartialEq, Eq)]
pub enum Asked {
    Said(Given),
    Panicked,
}

/// The answer by the rules, and what the Rust says of it.
pub fn expected(limits: &Limits, case: &Case) -> (Answer, Asked) {
    let call = calls::of(case);
    let answer = (call.answer)(limits, case);
    let asked = match catch_unwind(AssertUnwindSafe(|| (call.given)(case, &answer))) {
        Ok(given) => Asked::Said(given),
        Err(_) => Asked::Panicked,
    };
    (answer, asked)
}

/// Why the Rust is not at one with the rules, if it is not. It has to panic where that is foreseen, and nowhere else.
pub fn against_the_rust(case: &Case, asked: &Asked) -> Option<String> {
    match asked {
        Asked::Said(Given::Differs(why)) => Some(why.clone()),
        Asked::Said(Given::NotAsked) => None,
        Asked::Said(Given::Agrees) => foreseen(case).then(|| "the Rust does not stop where it should panic".into()),
        Asked::Panicked => (!foreseen(case)).then(|| "the Rust panics".into()),
    }
}

/// Why our side is not at one with the rules, if it is not.
pub fn against_ours(case: &Case, answer: &Answer, ours: &Left) -> Option<String> {
    let call = calls::of(case);
    if ours.number != answer.number {
        return Some(shown("number", ours.number, answer.number));
    }
    if ours.out != answer.out {
        return Some(format!("out: ours {:?}, expected {:?}", ours.out, answer.out));
    }
    let lists = answer.lists.iter().zip(&ours.lists).zip(call.lists);
    lists.enumerate().find_map(|(l, ((written, left), list))| {
        let due = |i: usize| written.get(i).copied().unwrap_or(list.cell.pattern(i));
        let i = (0..left.len()).find(|&i| left[i] != due(i))?;
        let which = if i < written.len() { "cell" } else { "an untouched cell" };
        Some(shown(&format!("list {l}, {which} {i}"), left[i], due(i)))
    })
}

fn shown(what: &str, ours: u64, due: u64) -> String {
    format!("{what}: ours {ours}, expected {due}")
}
