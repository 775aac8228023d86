//! Statements and the pattern search.

use super::{all, held, Given};
use crate::case::{Answer, Case};
use crate::rules::limits::{first, Limits};
use crate::rules::statement::{column_list, hints, Reading};
use given::schema_sig::{boyer_moore_search, ColumnTypeHint, SchemaSignature};

/// Writes those that fit; refusal 9 if there are more.
pub fn list(found: Vec<u64>, room: usize) -> Answer {
    let number = if found.len() > room { 9 } else { 0 };
    let written: Vec<u64> = found.into_iter().take(room).collect();
    Answer::new(number, vec![written.len() as u64], vec![written])
}

pub fn statement(limits: &Limits, case: &Case) -> Answer {
    read(limits, Reading::AsRust, case)
}

pub fn columns(limits: &Limits, case: &Case) -> Answer {
    read(limits, limits.by_format.reading, case)
}

fn read(limits: &Limits, reading: Reading, case: &Case) -> Answer {
    let text = &case.slices[0];
    let columns = column_list(text);
    let found = columns.map_or(Vec::new(), |list| hints(limits, reading, list));
    let refused =
        first(&[(3, text.len() > limits.statement), (7, columns.is_none()), (1, limits.bad_count(found.len() as u64))]);
    match refused {
        Some(number) => Answer::refused(number, 1, 1),
        None => list(found.into_iter().map(u64::from).collect(), case.lists[0]),
    }
}

fn code_of(hint: &ColumnTypeHint) -> u64 {
    match hint {
        ColumnTypeHint::Integer => 0,
        ColumnTypeHint::Real => 1,
        ColumnTypeHint::Text => 2,
        ColumnTypeHint::Blob => 3,
        ColumnTypeHint::Null => 4,
        ColumnTypeHint::Any => 5,
    }
}

/// Not asked: statements that are too long, or hold bytes above 127.
pub fn given_statement(case: &Case, answer: &Answer) -> Given {
    let ascii = std::str::from_utf8(&case.slices[0]).ok().filter(|t| t.is_ascii());
    let Some(text) = ascii.filter(|_| answer.number != 3) else {
        return Given::NotAsked;
    };
    let Some(signature) = SchemaSignature::from_create_sql("", text) else {
        return held("no column list", 7, answer.number);
    };
    let rust: Vec<u64> = signature.type_hints.iter().map(code_of).collect();
    let count = rust.len();
    let number = match count {
        n if Limits::of_the_rules().bad_count(n as u64) => 1,
        n if n > case.lists[0] => 9,
        _ => 0,
    };
    let written = if number == 1 { 0 } else { count.min(case.lists[0]) };
    all([
        held("column count", signature.column_count, count),
        held("refusal", number, answer.number),
        held("hints", &rust[..written], &answer.lists[0]),
    ])
}

/// The Rust has the other reading alone.
pub fn given_columns(_: &Case, _: &Answer) -> Given {
    Given::NotAsked
}

pub fn search(limits: &Limits, case: &Case) -> Answer {
    let (haystack, pattern) = (&case.slices[0], &case.slices[1]);
    if haystack.len() > limits.region {
        return Answer::refused(3, 1, 1);
    }
    let places = if pattern.is_empty() {
        Vec::new()
    } else {
        let all = haystack.windows(pattern.len()).enumerate();
        all.filter(|(_, w)| w == pattern).map(|(i, _)| i as u64).collect()
    };
    list(places, case.lists[0])
}

pub fn given_search(case: &Case, answer: &Answer) -> Given {
    if answer.number == 3 {
        return Given::NotAsked;
    }
    let rust = boyer_moore_search(&case.slices[0], &case.slices[1]);
    let room = case.lists[0];
    let written: Vec<u64> = rust.iter().take(room).map(|&p| p as u64).collect();
    all([
        held("refusal", if rust.len() > room { 9 } else { 0 }, answer.number),
        held("places", &written, &answer.lists[0]),
    ])
}
