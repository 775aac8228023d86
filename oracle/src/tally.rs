//! What was compared, in numbers.

use crate::calls::{Given, CALLS, READ_ENTRY, READ_VARINT, VIEW_ENTRY};
use crate::case::{Answer, Case, Cell};
use crate::compare::Asked;
use crate::rules::limits::{WORDS_PER_ENTRY, WORDS_PER_ROW};
use std::collections::BTreeMap;

const STATES: usize = 4;

#[derive(Default)]
struct PerCall {
    cases: u64,
    with_the_rust: u64,
    /// Rows, leaves, hints or places written.
    written: u64,
    /// Rows, or varints, that are marked as padded.
    padded: u64,
    numbers: BTreeMap<u64, u64>,
}

pub struct Tally {
    calls: Vec<PerCall>,
    /// Column entries by state: as written by our side, and as read by it (the last place is for bad states).
    states_written: [u64; STATES],
    states_read: [u64; STATES + 1],
    values: [u64; 6],
    panicked: u64,
    /// Scans that were made in parts, in how many ways in all, and scans that were not.
    scans_in_parts: u64,
    ways: u64,
    not_in_parts: u64,
    /// Lists with guesses that were held against those without, and the rows that they have more.
    with_guesses: u64,
    rebuilt: u64,
}

impl Tally {
    pub fn new() -> Tally {
        Tally {
            calls: CALLS.iter().map(|_| PerCall::default()).collect(),
            states_written: [0; STATES],
            states_read: [0; STATES + 1],
            values: [0; 6],
            panicked: 0,
            scans_in_parts: 0,
            ways: 0,
            not_in_parts: 0,
            with_guesses: 0,
            rebuilt: 0,
        }
    }

    /// So many lists with guesses were held against those without, and have so many rows more.
    pub fn with_guesses(&mut self, lists: usize, rebuilt: usize) {
        self.with_guesses += lists as u64;
        self.rebuilt += rebuilt as u64;
    }

    pub fn print_with_guesses(&self) {
        println!(
            "{} lists with guesses, less their {} rebuilt rows, are those without, in order and word for word",
            self.with_guesses, self.rebuilt
        );
    }

    /// So many scans were made in parts, in so many ways, and so many were not.
    pub fn in_parts(&mut self, scans: usize, ways: usize, others: usize) {
        self.scans_in_parts += scans as u64;
        self.ways += ways as u64;
        self.not_in_parts += others as u64;
    }

    pub fn print_in_parts(&self) {
        println!(
            "{} scans were made in parts as well, in {} ways: each left what the whole did; {} were not, for their size",
            self.scans_in_parts, self.ways, self.not_in_parts
        );
    }

    pub fn add(&mut self, case: &Case, answer: &Answer, asked: &Asked) {
        let call = &mut self.calls[case.call as usize - 1];
        call.cases += 1;
        call.with_the_rust += u64::from(*asked == Asked::Said(Given::Agrees));
        *call.numbers.entry(answer.number).or_default() += 1;
        self.panicked += u64::from(*asked == Asked::Panicked);
        if !case.lists.is_empty() {
            call.written += answer.out[0];
        }
        if case.call == READ_ENTRY || case.call == VIEW_ENTRY {
            let state = (case.numbers[0] as usize).min(STATES);
            self.states_read[state] += 1;
        }
        if case.call == READ_ENTRY {
            self.values[answer.out[0] as usize] += 1;
        }
        if case.call == READ_VARINT {
            call.padded += answer.out[3];
        }
        for (list, lent) in answer.lists.iter().zip(CALLS[case.call as usize - 1].lists) {
            match lent.cell {
                Cell::Row => call.padded += list.chunks(WORDS_PER_ROW).map(|row| row[WORDS_PER_ROW - 1]).sum::<u64>(),
                Cell::Entry => {
                    list.chunks(WORDS_PER_ENTRY).for_each(|entry| self.states_written[entry[0] as usize] += 1);
                }
                _ => {}
            }
        }
    }

    pub fn total(&self) -> u64 {
        self.calls.iter().map(|c| c.cases).sum()
    }

    /// The rows that a call has written, and those of them that are marked as padded.
    pub fn rows(&self, call: u8) -> (u64, u64) {
        let call = &self.calls[call as usize - 1];
        (call.written, call.padded)
    }

    pub fn print(&self) {
        println!("{:<27} {:>10} {:>12} {:>10} {:>10}  refusals", "call", "cases", "with Rust", "written", "padded");
        for (call, per) in CALLS.iter().zip(&self.calls) {
            println!(
                "{:<27} {:>10} {:>12} {:>10} {:>10}  {}",
                call.name,
                per.cases,
                per.with_the_rust,
                per.written,
                per.padded,
                numbered(&per.numbers)
            );
        }
        let mut all = BTreeMap::new();
        for (number, count) in self.calls.iter().flat_map(|c| &c.numbers) {
            *all.entry(*number).or_default() += count;
        }
        let asked: u64 = self.calls.iter().map(|c| c.with_the_rust).sum();
        let padded: u64 = self.calls.iter().map(|c| c.padded).sum();
        println!("{:<27} {:>10} {:>12} {:>10} {padded:>10}  {}", "all", self.total(), asked, "", numbered(&all));
        println!("the Rust panicked, as foreseen, on {} of these; the rules alone decide there", self.panicked);
        println!("column states written by a call (0 to 3): {:?}", self.states_written);
        let refusals = (1..=9).filter(|number| !all.contains_key(number));
        let states = (0..STATES as u64).filter(|&state| self.states_written[state as usize] == 0);
        for (what, missed) in [("refusals", refusals.collect::<Vec<u64>>()), ("states", states.collect())] {
            if !missed.is_empty() {
                println!("NOT REACHED: {what} {missed:?}");
            }
        }
        let mixed = |per: &PerCall| per.padded > 0 && per.padded < per.written;
        for (call, _) in CALLS.iter().zip(&self.calls).filter(|(call, per)| call.writes_rows() && !mixed(per)) {
            println!("NOT REACHED: rows of {} that are marked as padded, and others", call.name);
        }
        self.print_in_parts();
        self.print_with_guesses();
        println!("column states read by a call (0 to 3, above): {:?}", self.states_read);
        println!("values read (none, NULL, integer, real, text, blob): {:?}", self.values);
    }
}

fn numbered(numbers: &BTreeMap<u64, u64>) -> String {
    let refused = numbers.iter().filter(|(n, _)| **n != 0);
    let shown: Vec<String> = refused.map(|(n, count)| format!("{n}: {count}")).collect();
    shown.join(", ")
}
