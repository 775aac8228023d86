//! Measures the given Rust and the proved library over the same inputs, in one program. `bench/run` builds and calls it.

#![no_main]

mod check;
mod clock;
mod inputs;
mod measures;
mod ours;
mod pages;
mod rows;
mod rust;
mod work;

/// The calls as the wrapper declares them, in the wrapper's layout.
#[allow(dead_code)]
#[rustfmt::skip]
#[path = "../../wrapper/src/door.rs"]
mod door;

/// Turns the Rust's answers into our words and compares; its rules decide where the Rust has no such call.
#[allow(dead_code)]
#[path = "../../oracle/src"]
mod oracle {
    pub mod calls;
    pub mod case;
    pub mod random;
    pub mod rules;
}

use measures::Measure;
use oracle::{calls, case, random, rules};
use work::Prepared;

const USAGE: &str = "usage: bench list                          the measures' names
       bench check NAME                    whether both sides' answers are equal
       bench time NAME                     the best time of the Rust and of ours, in nanoseconds
       bench once NAME rust|ours|none      makes the call of one side once, or not at all";

const USED_BADLY: i32 = 2;

/// Without the standard start, which opens a file that an emulator may not have.
#[no_mangle]
pub extern "C" fn main(_: i32, _: *const *const u8) -> i32 {
    let words: Vec<String> = std::env::args().skip(1).collect();
    let words: Vec<&str> = words.iter().map(String::as_str).collect();
    run(&words).unwrap_or_else(|why| {
        eprintln!("bench: {why}\n{USAGE}");
        USED_BADLY
    })
}

fn run(words: &[&str]) -> Result<i32, String> {
    match words {
        ["list"] => list(),
        ["check", name] => return Ok(check::print(&named(name)?.work()?)),
        ["time", name] => clock::print(&named(name)?.work()?),
        ["once", name, side @ ("rust" | "ours" | "none")] => once(&named(name)?.work()?, side),
        _ => return Err("no such words".into()),
    }
    Ok(0)
}

fn list() {
    for measure in measures::all() {
        println!("{}", measure.name);
    }
}

fn named(name: &str) -> Result<Measure, String> {
    measures::all().into_iter().find(|m| m.name == name).ok_or(format!("no measure {name}"))
}

/// All is prepared for both sides whichever is called, so that two runs differ by the call alone.
fn once(work: &work::Work, side: &str) {
    let mut prepared = Prepared::new(work);
    match (side, &prepared.rust) {
        ("ours", _) => prepared.run_ours(work),
        ("rust", Some(rust)) => std::mem::forget(rust(work.values.clone())),
        _ => {}
    }
    std::process::exit(0);
}
