//! Runs cases through all three sides in batches and stops at the first difference, which it cuts down. A call that the
//! archive does not have is held against the Rust alone.

use crate::calls;
use crate::case::{Answer, Case};
use crate::compare::{against_ours, against_the_rust, expected};
use crate::guesses::{same_but_for_the_way, without, Without};
use crate::only::{every_list, Tried};
use crate::panics;
use crate::resuming::{in_parts, rows_of};
use crate::rules::limits::Limits;
use crate::server::{Left, Server};
use crate::shrink::shrink;
use crate::tally::Tally;
use crate::text;
use std::{io, slice};

/// Where generated cases go.
pub trait Sink {
    fn put(&mut self, case: Case);

    /// Whether statements come here that are made up for the reading by the format.
    fn wants_by_format(&self) -> bool {
        true
    }
}

/// A batch is answered when it has so many cases, or cases of so many bytes and cells.
pub const BATCH_CASES: usize = 4096;
pub const BATCH_SIZE: usize = 1 << 20;

/// Of regions up to so many bytes every list of rows is tried.
const LONGEST: usize = 7;

/// Which sides are held against the rules; the oracle's own test looks at one at a time.
#[derive(Clone, Copy, PartialEq, Eq)]
pub enum Sides {
    Both,
    RustOnly,
    OursOnly,
}

pub struct Difference {
    pub case: Case,
    pub why: String,
    pub first: Case,
}

pub struct Runner {
    pub limits: Limits,
    pub tally: Tally,
    pub difference: Option<Difference>,
    server: Server,
    /// Which calls the archive has.
    there: Vec<bool>,
    sides: Sides,
    batch: Vec<Case>,
    size: usize,
}

impl Sink for Runner {
    fn put(&mut self, case: Case) {
        if self.difference.is_some() {
            return;
        }
        let full = self.batch.len() >= BATCH_CASES || self.size >= BATCH_SIZE;
        // The ways of one case stay in one batch.
        if full && !self.batch.last().is_some_and(|last| same_but_for_the_way(last, &case)) {
            self.finish();
        }
        self.size += case.size();
        self.batch.push(case);
    }
}

impl Runner {
    pub fn new(limits: Limits, command: &[String], sides: Sides) -> Runner {
        let mut server = Server::start(command).unwrap_or_else(|e| fatal(&e));
        let there = server.calls_there().unwrap_or_else(|e| fatal(&e));
        Runner { limits, tally: Tally::new(), difference: None, server, there, sides, batch: Vec::new(), size: 0 }
    }

    /// Answers what has been put so far.
    pub fn finish(&mut self) {
        let batch = std::mem::take(&mut self.batch);
        self.size = 0;
        if batch.is_empty() || self.difference.is_some() {
            return;
        }
        if let Some((case, why)) = self.first_difference(&batch) {
            self.cut_down(case, why);
        }
    }

    /// Whether our side is asked: the archive must have the call.
    pub fn has(&self, case: &Case) -> bool {
        self.there[case.call as usize - 1]
    }

    /// The server works on the batch while this side works out what is due.
    fn first_difference(&mut self, batch: &[Case]) -> Option<(Case, String)> {
        let sent = self.server.send(batch.iter().filter(|c| self.there[c.call as usize - 1]));
        let due: Vec<_> = batch.iter().map(|c| expected(&self.limits, c)).collect();
        if sent.is_err() {
            return self.one_by_one(batch);
        }
        let mut without = Without::default();
        for (case, (answer, asked)) in batch.iter().zip(&due) {
            let rust = against_the_rust(case, asked).filter(|_| self.sides != Sides::OursOnly);
            let mut differs = None;
            if self.has(case) {
                let Ok(ours) = self.server.receive(case) else {
                    return self.one_by_one(batch);
                };
                differs = against_ours(case, answer, &ours).or_else(|| without.put(case, answer, ours));
                differs = differs.filter(|_| self.sides != Sides::RustOnly);
            }
            if let Some(why) = rust.or(differs) {
                self.restart();
                return Some((case.clone(), why));
            }
            self.tally.add(case, answer, asked);
        }
        self.tally.with_guesses(without.lists, without.rebuilt);
        self.first_in_parts(batch)
    }

    /// The first scan that leaves something else in parts than at once. Those behind each other that differ in their room alone are the
    /// same there.
    fn first_in_parts(&mut self, batch: &[Case]) -> Option<(Case, String)> {
        if self.sides != Sides::Both {
            return None;
        }
        let scans: Vec<&Case> = batch.iter().filter(|case| case.call == calls::SCAN && self.has(case)).collect();
        let same = |one: &&Case, other: &&Case| one.numbers == other.numbers && one.slices == other.slices;
        let each = scans.chunk_by(same).map(|same| same[0]);
        let scans: Vec<_> = each.map(|case| (case, rows_of(&self.limits, case))).collect();
        let few: Vec<_> = scans.iter().filter_map(|&(case, rows)| Some((case, rows?))).collect();
        match in_parts(&few, &mut |parts| self.server.ask_all(parts)) {
            Ok(ways) => {
                self.tally.in_parts(few.len(), ways, scans.len() - few.len());
                None
            }
            Err(difference) => {
                self.restart();
                Some(difference)
            }
        }
    }

    /// The server died in this batch: each case by itself shows where.
    fn one_by_one(&mut self, batch: &[Case]) -> Option<(Case, String)> {
        for case in batch {
            self.restart();
            if let Some(why) = self.differs(case) {
                return Some((case.clone(), why));
            }
        }
        Some((batch[0].clone(), "the server died in a batch, and in no case of it".into()))
    }

    fn restart(&mut self) {
        if let Err(e) = self.server.restart() {
            eprintln!("oracle: the server cannot be started again: {e}");
            std::process::exit(2);
        }
    }

    /// Why a case by itself differs.
    pub fn differs(&mut self, case: &Case) -> Option<String> {
        let (answer, asked) = expected(&self.limits, case);
        let rust = against_the_rust(case, &asked);
        if self.sides != Sides::OursOnly && rust.is_some() {
            return rust;
        }
        if self.sides == Sides::RustOnly || !self.has(case) {
            return None;
        }
        match self.server.ask(case) {
            Ok(ours) => against_ours(case, &answer, &ours)
                .or_else(|| self.first_in_parts(slice::from_ref(case)).map(|differs| differs.1))
                .or_else(|| self.with_guesses(case, &answer, ours)),
            Err(e) => {
                self.restart();
                Some(format!("the server died: {e}"))
            }
        }
    }

    /// Why what was left in a case does not belong to what is left in it without guesses.
    fn with_guesses(&mut self, case: &Case, answer: &Answer, ours: Left) -> Option<String> {
        let plain = without(case)?;
        let left = self.server.ask(&plain).ok()?;
        Without::after(&plain, left).put(case, answer, ours)
    }

    /// What our side leaves, for showing it.
    pub fn ask(&mut self, case: &Case) -> io::Result<Left> {
        self.server.ask(case)
    }

    /// The names of the calls that the archive does not have.
    pub fn missing(&self) -> Vec<&'static str> {
        let calls = calls::CALLS.iter().zip(&self.there);
        calls.filter(|(_, there)| !**there).map(|(call, _)| call.name).collect()
    }

    /// Checks the list of the Rust's panics.
    pub fn panics(&mut self) -> Result<(usize, usize), String> {
        panics::check(&self.limits, &mut self.server, &self.there)
    }

    /// Tries every list of rows in short regions.
    pub fn every_list(&mut self) -> Result<Tried, String> {
        if !(self.there[calls::SCAN as usize - 1] && self.there[calls::ATTEMPT as usize - 1]) {
            return Ok(Tried::default());
        }
        every_list(LONGEST, &mut |cases| self.server.ask_all(cases))
    }

    fn cut_down(&mut self, first: Case, why: String) {
        let panics = |why: &str| why.contains("panics");
        let case = shrink(first.clone(), |smaller| {
            // A panic must stay one, and a difference must not turn into one.
            self.differs(smaller).is_some_and(|w| panics(&w) == panics(&why))
        });
        let why = self.differs(&case).unwrap_or(why);
        self.difference = Some(Difference { case, why, first });
    }
}

impl Difference {
    pub fn print(&self) {
        println!("DIFFERENCE in {}: {}", calls::of(&self.case).name, self.why);
        println!("  cut down from {} bytes and cells to {}:", self.first.size(), self.case.size());
        println!("  oracle/run --case '{}'", text::line(&self.case));
    }
}

/// An error of the machine, not a difference.
pub fn fatal(e: &io::Error) -> ! {
    eprintln!("oracle: {e}");
    std::process::exit(2);
}
