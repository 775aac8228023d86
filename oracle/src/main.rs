//! Holds the proved library against the given Rust. Every case goes three ways: by the rules (src/rules), through the
//! given Rust, and through our side's server; all must agree, word for word.

mod calls;
mod case;
mod cases;
mod compare;
mod guesses;
mod only;
mod options;
mod panics;
mod random;
mod recording;
mod resuming;
mod rules;
mod runner;
mod selftest;
mod server;
mod shrink;
mod statements;
mod tablets;
mod tally;
mod text;

use options::Options;
use rules::limits::Limits;
use runner::{fatal, Runner, Sides};
use std::time::Instant;

fn main() {
    let options = match options::parse(std::env::args().skip(1)) {
        Ok(options) => options,
        Err(why) => {
            eprintln!("oracle: {why}\n{}", options::USAGE);
            std::process::exit(2);
        }
    };
    // A panic of the Rust is caught and judged; what it prints would only be in the way. Ours still show.
    std::panic::set_hook(Box::new(|info| {
        let ours = info.location().is_some_and(|l| l.file().starts_with("src"));
        if ours {
            eprintln!("oracle: {info}");
        }
    }));
    if !run(&options) {
        std::process::exit(1);
    }
}

/// True where nothing differs.
fn run(options: &Options) -> bool {
    if let Some(folder) = &options.record {
        return recording::record(folder, options.seed).unwrap_or_else(|e| fatal(&e));
    }
    if options.server.is_empty() {
        eprintln!("oracle: no server named\n{}", options::USAGE);
        std::process::exit(2);
    }
    if options.self_test {
        return selftest::run(&options.server);
    }
    let mut runner = Runner::new(Limits::of_the_rules(), &options.server, Sides::Both);
    if let Some(line) = &options.case {
        return one_case(&mut runner, line);
    }
    if let Some(folder) = &options.tablets {
        return tablets::run(&mut runner, folder).unwrap_or_else(|e| fatal(&e));
    }
    if let Some(folder) = &options.statements {
        return statements::run(&mut runner, folder, options.seed, options.cases).unwrap_or_else(|e| fatal(&e));
    }
    compare(runner, options)
}

fn one_case(runner: &mut Runner, line: &str) -> bool {
    let Some(case) = text::parse(line) else {
        eprintln!("oracle: not a case: {line}");
        std::process::exit(2);
    };
    let (answer, asked) = compare::expected(&runner.limits, &case);
    println!("rules: number {}, out {:?}, written {:?}", answer.number, answer.out, answer.lists);
    println!("Rust: {asked:?}");
    if runner.has(&case) {
        println!("ours: {:?}", runner.ask(&case));
    }
    let why = runner.differs(&case);
    println!("{}", why.as_deref().unwrap_or("no difference"));
    why.is_none()
}

fn compare(mut runner: Runner, options: &Options) -> bool {
    let begun = Instant::now();
    println!("oracle: seed {}, {} random cases", options.seed, options.cases);
    let missing = runner.missing();
    if !missing.is_empty() {
        println!("WITH THE RUST ALONE, since the archive does not have it: {}", missing.join(", "));
    }
    match runner.panics() {
        Ok((all, ours)) => {
            println!("the Rust panics on all {all} cases of its list; ours answers {ours} of them, by the rules");
        }
        Err(why) => {
            println!("DIFFERENCE: {why}");
            return false;
        }
    }
    match runner.every_list() {
        Ok(tried) => println!(
            "of the {} lists of rows in {} short regions one a region has the properties of rule 4.17: the scan's",
            tried.lists, tried.regions
        ),
        Err(why) => {
            println!("DIFFERENCE: {why}");
            return false;
        }
    }
    let plan = cases::Plan { seed: options.seed, random: options.cases, large: true, long: options.long };
    cases::worked(&mut runner);
    cases::all(&mut runner, &plan);
    runner.finish();
    runner.tally.print();
    let seconds = begun.elapsed().as_secs_f64();
    println!("{} cases in {seconds:.1} s, seed {}", runner.tally.total(), options.seed);
    match &runner.difference {
        Some(difference) => difference.print(),
        None => println!("0 differences"),
    }
    runner.difference.is_none() && (missing.is_empty() || options.partial)
}
