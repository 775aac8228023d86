//! The comparison can fail: with one number of the rules changed by one, a difference must be found and cut down,
//! against our side and, where the Rust has that number too, against the Rust.

mod guesses;
pub mod noticing;
mod padding;
mod rebuilding;
mod statements;

use crate::calls::{BLOCK, CALLS, COMPATIBLE, GAP_SLICE, LEARN, LEAVES, MODES, PAGE_DATA, READ_VARINT};
use crate::calls::{RECOVER, RECOVER_SLICE, SCAN, STATEMENT, UNALLOC};
use crate::cases::gaps::{self, AsGaps};
use crate::cases::{self, blocks, chains, large, learned, learning, limits, modes, numbers};
use crate::cases::{tables, values, varints, walks};
use crate::random::Random;
use crate::rules::limits::Limits;
use crate::runner::{Runner, Sides, Sink};
use crate::text;

struct Change {
    what: &'static str,
    change: fn(&mut Limits),
    /// The call that shows it.
    call: u8,
    cases: fn(&mut dyn Sink, &mut Random, usize),
    /// Whether the Rust has the number.
    in_the_rust: bool,
    /// The bytes and cells of the case when cut down.
    at_most: usize,
}

const CHANGES: &[Change] = &[
    Change {
        what: "a header of 512 bytes is too long",
        change: |l| l.most_header = 511,
        call: SCAN,
        cases: limits::all,
        in_the_rust: true,
        at_most: 600,
    },
    Change {
        what: "a header of 2 bytes is too short",
        change: |l| l.least_header = 3,
        call: SCAN,
        cases: limits::all,
        in_the_rust: true,
        at_most: 3,
    },
    Change {
        what: "a row of 65,536 bytes is too long",
        change: |l| l.consumed = 65_535,
        call: SCAN,
        cases: limits::all,
        in_the_rust: true,
        at_most: 65_545,
    },
    Change {
        what: "a varint has at most eight bytes",
        change: |l| l.more_bytes = 7,
        call: READ_VARINT,
        cases: varints::all,
        in_the_rust: true,
        at_most: 9,
    },
    Change {
        what: "510 columns are refused",
        change: |l| l.columns = 509,
        call: SCAN,
        cases: limits::all,
        in_the_rust: false,
        at_most: 510,
    },
    Change {
        what: "511 columns are not refused",
        change: |l| l.columns = 511,
        call: SCAN,
        cases: limits::all,
        in_the_rust: false,
        at_most: 511,
    },
    Change {
        what: "hint code 5 is refused",
        change: |l| l.hint = 4,
        call: COMPATIBLE,
        cases: values::all,
        in_the_rust: true,
        at_most: 0,
    },
    Change {
        what: "a base of 2^48 is refused",
        change: |l| l.base = (1 << 48) - 1,
        call: SCAN,
        cases: limits::all,
        in_the_rust: false,
        at_most: 1,
    },
    Change {
        what: "a statement with 510 columns is refused",
        change: |l| l.columns = 509,
        call: STATEMENT,
        cases: cases::statements::all,
        in_the_rust: true,
        at_most: 1021,
    },
    Change {
        what: "a region of 16,777,216 bytes is refused",
        change: |l| l.region = 16_777_215,
        call: SCAN,
        cases: |sink, _, _| large::regions(sink, 16_777_216),
        in_the_rust: false,
        at_most: 16_777_266,
    },
    Change {
        what: "a page of 512 bytes is too small",
        change: |l| l.least_page = 513,
        call: PAGE_DATA,
        cases: numbers::all,
        in_the_rust: false,
        at_most: 0,
    },
    Change {
        what: "a page of 65,536 bytes is too large",
        change: |l| l.most_page = 65_535,
        call: PAGE_DATA,
        cases: numbers::all,
        in_the_rust: false,
        at_most: 0,
    },
    Change {
        what: "page 1 has its header at byte 99",
        change: |l| l.first_header = 99,
        call: PAGE_DATA,
        cases: numbers::all,
        in_the_rust: true,
        at_most: 512,
    },
    Change {
        what: "a leaf has the type 14",
        change: |l| l.leaf = 14,
        call: LEAVES,
        cases: walks::all,
        in_the_rust: true,
        at_most: 520,
    },
    Change {
        what: "an interior page has the type 4",
        change: |l| l.interior = 4,
        call: LEAVES,
        cases: walks::all,
        in_the_rust: true,
        at_most: 1100,
    },
    Change {
        what: "cell pointers begin behind 11 bytes",
        change: |l| l.interior_header = 11,
        call: LEAVES,
        cases: walks::all,
        in_the_rust: true,
        at_most: 1100,
    },
    Change {
        what: "a block may begin 7 bytes behind the header",
        change: |l| l.leaf_header = 7,
        call: RECOVER_SLICE,
        cases: chains::all,
        in_the_rust: true,
        at_most: 20,
    },
    Change {
        what: "a block may begin 9 bytes behind the header",
        change: |l| l.leaf_header = 9,
        call: RECOVER_SLICE,
        cases: chains::all,
        in_the_rust: true,
        at_most: 20,
    },
    Change {
        what: "a block may have 3 bytes",
        change: |l| l.least_block = 3,
        call: RECOVER_SLICE,
        cases: chains::all,
        in_the_rust: true,
        at_most: 30,
    },
    Change {
        what: "a block has at least 5 bytes",
        change: |l| l.least_block = 5,
        call: RECOVER_SLICE,
        cases: chains::all,
        in_the_rust: true,
        at_most: 30,
    },
    Change {
        what: "a row begins at one of 19 places",
        change: |l| l.starts = 19,
        call: RECOVER_SLICE,
        cases: chains::all,
        in_the_rust: true,
        at_most: 40,
    },
    Change {
        what: "a row begins at one of 21 places",
        change: |l| l.starts = 21,
        call: RECOVER_SLICE,
        cases: chains::all,
        in_the_rust: true,
        at_most: 40,
    },
    Change {
        what: "confidence is times the float behind 0.6",
        change: |l| l.freed = 0.6f32.next_up(),
        call: RECOVER_SLICE,
        cases: chains::all,
        in_the_rust: true,
        at_most: 30,
    },
    Change {
        what: "1,024 tables are refused",
        change: |l| l.tables = 1023,
        call: RECOVER,
        cases: tables::all,
        in_the_rust: false,
        at_most: 3072,
    },
    Change {
        what: "a table of 510 columns is refused",
        change: |l| l.columns = 509,
        call: RECOVER,
        cases: tables::all,
        in_the_rust: false,
        at_most: 514,
    },
    Change {
        what: "cell pointers of a leaf begin behind 7 bytes",
        change: |l| l.leaf_header = 7,
        call: GAP_SLICE,
        cases: |sink, _, _| gaps::bounds(&mut AsGaps(sink)),
        in_the_rust: true,
        at_most: 20,
    },
    Change {
        what: "cell pointers of a leaf begin behind 9 bytes",
        change: |l| l.leaf_header = 9,
        call: GAP_SLICE,
        cases: |sink, _, _| gaps::bounds(&mut AsGaps(sink)),
        in_the_rust: true,
        at_most: 20,
    },
    Change {
        what: "a content start of 0 is 65,535",
        change: |l| l.whole_page = 65_535,
        call: GAP_SLICE,
        cases: |sink, _, _| gaps::whole_page(&mut AsGaps(sink)),
        in_the_rust: true,
        at_most: 65_600,
    },
    Change {
        what: "a content start of 0 is 65,537",
        change: |l| l.whole_page = 65_537,
        call: GAP_SLICE,
        cases: |sink, _, _| gaps::whole_page(&mut AsGaps(sink)),
        in_the_rust: true,
        at_most: 65_600,
    },
    Change {
        what: "1,023 blocks of a chain are looked at",
        change: |l| l.chain_steps = 1023,
        call: GAP_SLICE,
        cases: |sink, _, _| gaps::steps(&mut AsGaps(sink)),
        in_the_rust: true,
        at_most: 8_300,
    },
    Change {
        what: "1,025 blocks of a chain are looked at",
        change: |l| l.chain_steps = 1025,
        call: GAP_SLICE,
        cases: |sink, _, _| gaps::steps(&mut AsGaps(sink)),
        in_the_rust: true,
        at_most: 8_300,
    },
    Change {
        what: "a rebuilt row's confidence is times the float behind 0.9",
        change: |l| l.rebuilt = 0.9f32.next_up(),
        call: BLOCK,
        cases: |sink, _, _| blocks::rebuilt(sink),
        in_the_rust: true,
        at_most: 15,
    },
    Change {
        what: "a rebuilt row of 65,535 bytes is too long",
        change: |l| l.rebuilt_consumed = 65_534,
        call: BLOCK,
        cases: |sink, _, _| blocks::long_rows(sink),
        in_the_rust: true,
        at_most: 65_600,
    },
    Change {
        what: "a rebuilt row may have 65,536 bytes",
        change: |l| l.rebuilt_consumed = 65_536,
        call: BLOCK,
        cases: |sink, _, _| blocks::long_rows(sink),
        in_the_rust: true,
        at_most: 65_600,
    },
    Change {
        what: "a cell's row of 65,536 bytes is too long",
        change: |l| l.consumed = 65_535,
        call: BLOCK,
        cases: |sink, _, _| blocks::long_rows(sink),
        in_the_rust: true,
        at_most: 65_600,
    },
    Change {
        what: "a percent is the nearest whole one",
        change: |l| l.percent = |confidence| (confidence * 100.0).round() as u64,
        call: GAP_SLICE,
        cases: |sink, _, _| gaps::shares(&mut AsGaps(sink)),
        in_the_rust: true,
        at_most: 60,
    },
    Change {
        what: "a percent is cut off before it is rounded to a float",
        change: |l| l.percent = |confidence| (f64::from(confidence) * 100.0) as u64,
        call: GAP_SLICE,
        cases: |sink, _, _| gaps::shares(&mut AsGaps(sink)),
        in_the_rust: true,
        at_most: 700,
    },
    Change {
        what: "a row with its header has the confidence behind 0.8",
        change: |l| l.modes[0] = 0.8f32.next_up(),
        call: MODES,
        cases: |sink, _, _| modes::short(sink),
        in_the_rust: true,
        at_most: 30,
    },
    Change {
        what: "a row of types alone has the confidence behind 0.5",
        change: |l| l.modes[1] = 0.5f32.next_up(),
        call: MODES,
        cases: |sink, _, _| modes::short(sink),
        in_the_rust: true,
        at_most: 30,
    },
    Change {
        what: "a row without its first column has the confidence behind 0.3",
        change: |l| l.modes[2] = 0.3f32.next_up(),
        call: MODES,
        cases: |sink, _, _| modes::lost(sink),
        in_the_rust: true,
        at_most: 40,
    },
    Change {
        what: "a row may stand where 2 bytes are left",
        change: |l| l.least_normal = 2,
        call: MODES,
        cases: |sink, _, _| modes::short(sink),
        in_the_rust: true,
        at_most: 16,
    },
    Change {
        what: "a row needs 4 bytes",
        change: |l| l.least_normal = 4,
        call: MODES,
        cases: |sink, _, _| modes::short(sink),
        in_the_rust: true,
        at_most: 30,
    },
    Change {
        what: "a link takes 3 bytes",
        change: |l| l.lost = 3,
        call: MODES,
        cases: |sink, _, _| modes::lost(sink),
        in_the_rust: true,
        at_most: 30,
    },
    Change {
        what: "a link takes 5 bytes",
        change: |l| l.lost = 5,
        call: MODES,
        cases: |sink, _, _| modes::lost(sink),
        in_the_rust: true,
        at_most: 30,
    },
    Change {
        what: "a block of 510 columns is refused",
        change: |l| l.columns = 509,
        call: MODES,
        cases: |sink, _, _| modes::refusals(sink, &[2, 8, 0]),
        in_the_rust: false,
        at_most: 3,
    },
    Change {
        what: "0 and 1 count as the type 1",
        change: |l| l.zero_and_one = 1,
        call: LEARN,
        cases: |sink, _, _| learning::integers(sink),
        in_the_rust: true,
        at_most: 6,
    },
    Change {
        what: "an integer of 48 bits counts as the type 5",
        change: |l| l.integers = &[(8, 1), (16, 2), (24, 3), (32, 4), (48, 5), (64, 6)],
        call: LEARN,
        cases: |sink, _, _| learning::integers(sink),
        in_the_rust: true,
        at_most: 12,
    },
    Change {
        what: "an integer of 8 bits counts as the type 2",
        change: |l| l.integers = &[(7, 1), (16, 2), (24, 3), (32, 4), (64, 6)],
        call: LEARN,
        cases: |sink, _, _| learning::integers(sink),
        in_the_rust: true,
        at_most: 6,
    },
    Change {
        what: "a tie goes to the largest type",
        change: |l| l.tie = u64::max,
        call: LEARN,
        cases: |sink, _, _| learning::commonest(sink),
        in_the_rust: false,
        at_most: 20,
    },
    Change {
        what: "1,024 rows to learn from are refused",
        change: |l| l.learned_rows = 1023,
        call: LEARN,
        cases: |sink, _, _| learning::many(sink),
        in_the_rust: false,
        at_most: 4110,
    },
    Change {
        what: "rows of 510 columns to learn from are refused",
        change: |l| l.columns = 509,
        call: LEARN,
        cases: |sink, _, _| learning::refusals(sink, &[7; 8]),
        in_the_rust: false,
        at_most: 0,
    },
    Change {
        what: "a percent of matched columns is the nearest whole one",
        change: |l| l.matched = |matched, columns| (matched as f64 * 100.0 / columns as f64).round() as u64,
        call: UNALLOC,
        cases: |sink, _, _| learned::shares(sink),
        in_the_rust: true,
        at_most: 30,
    },
    Change {
        what: "an attempt needs as many bytes as columns",
        change: |l| l.before_types = 0,
        call: UNALLOC,
        cases: |sink, _, _| learned::ends(sink),
        in_the_rust: true,
        at_most: 8,
    },
    Change {
        what: "an attempt needs two bytes more than columns",
        change: |l| l.before_types = 2,
        call: UNALLOC,
        cases: |sink, _, _| learned::ends(sink),
        in_the_rust: true,
        at_most: 8,
    },
    Change {
        what: "a header of 512 bytes is too long for learned types",
        change: |l| l.most_header = 511,
        call: UNALLOC,
        cases: |sink, _, _| learned::header_lengths(sink),
        in_the_rust: true,
        at_most: 700,
    },
    Change {
        what: "a header of 513 bytes is not too long for learned types",
        change: |l| l.most_header = 513,
        call: UNALLOC,
        cases: |sink, _, _| learned::header_lengths(sink),
        in_the_rust: true,
        at_most: 700,
    },
    Change {
        what: "510 learned types are refused",
        change: |l| l.columns = 509,
        call: UNALLOC,
        cases: |sink, _, _| learned::refusals(sink, &[2, 8, 0]),
        in_the_rust: false,
        at_most: 514,
    },
    Change {
        what: "a database of 16,777,216 bytes is refused",
        change: |l| l.region = 16_777_215,
        call: LEAVES,
        cases: |sink, _, _| large::database(sink, 65_536, 16_777_216),
        in_the_rust: false,
        at_most: 16_777_216,
    },
];

fn changes() -> impl Iterator<Item = &'static Change> {
    let parts = [CHANGES, rebuilding::CHANGES, guesses::CHANGES, padding::CHANGES, statements::CHANGES];
    parts.into_iter().flatten()
}

pub fn run(server: &[String]) -> bool {
    let mut good = true;
    let missing = Runner::new(Limits::of_the_rules(), server, Sides::Both).missing();
    for change in changes() {
        let name = CALLS[change.call as usize - 1].name;
        if missing.contains(&name) {
            println!("the archive has no {name} yet, so not tried against ours: {}", change.what);
        } else {
            good &= found(server, change, Sides::OursOnly);
        }
        if change.in_the_rust {
            good &= found(server, change, Sides::RustOnly);
        }
    }
    println!("self-test: {}", if good { "every change was found" } else { "FAILED" });
    good
}

fn found(server: &[String], change: &Change, sides: Sides) -> bool {
    let mut limits = Limits::of_the_rules();
    (change.change)(&mut limits);
    let mut runner = Runner::new(limits, server, sides);
    (change.cases)(&mut runner, &mut Random::new(1), 0);
    cases::worked(&mut runner);
    runner.finish();
    let side = if sides == Sides::OursOnly { "ours" } else { "the Rust" };
    let Some(difference) = &runner.difference else {
        println!("NOT FOUND against {side}: {}", change.what);
        return false;
    };
    println!("found against {side}: {}", change.what);
    println!("    {} -> {}: {}", difference.first.size(), difference.case.size(), difference.why);
    println!("    {}", text::line(&difference.case));
    if difference.case.size() > change.at_most {
        println!("NOT CUT DOWN to {} bytes and cells", change.at_most);
    }
    difference.case.size() <= change.at_most
}
