//! The cases: fixed ones for every boundary of the rules, short inputs exhaustively, and random ones.

pub mod blocks;
pub mod bytes;
pub mod chains;
pub mod databases;
pub mod entries;
pub mod gaps;
pub mod keys;
pub mod large;
pub mod learned;
pub mod learning;
pub mod limits;
pub mod modes;
pub mod numbers;
pub mod padding;
pub mod payloads;
pub mod rebuilding;
pub mod records;
pub mod regions;
pub mod rooms;
pub mod search;
pub mod statements;
pub mod tables;
pub mod telling;
pub mod values;
pub mod varints;
pub mod walks;
pub mod worked;

use crate::random::Random;
use crate::runner::Sink;
use worked::Worked;

/// How many random cases to make, over all calls.
pub struct Plan {
    pub seed: u64,
    pub random: usize,
    /// With regions of the largest size too, which take a while.
    pub large: bool,
    pub long: bool,
}

type Group = fn(&mut dyn Sink, &mut Random, usize);

/// Each group of cases with its share of the random ones, in percent.
const GROUPS: [(usize, Group); 8] = [
    (8, varints::all),
    (14, values::all),
    (10, entries::all),
    (2, limits::all),
    (44, regions::all),
    (6, rooms::all),
    (9, statements::all),
    (7, search::all),
];

/// The same for the calls on pages, whose random cases come on top.
const PAGE_GROUPS: [(usize, Group); 4] = [(1, numbers::all), (30, chains::all), (8, walks::all), (8, tables::all)];

/// The same for the carver of gaps and freed blocks, where each case goes three ways.
const GAP_GROUPS: [(usize, Group); 4] = [(28, gaps::all), (10, gaps::walks), (24, blocks::all), (2, rebuilding::all)];

/// The same for the three modes, and for learning.
const CARVING_GROUPS: [(usize, Group); 3] = [(24, modes::all), (20, learning::all), (24, learned::all)];

/// The same for padded numbers, in all of these.
const PADDING_GROUPS: [(usize, Group); 1] = [(1, padding::all)];

/// All but the worked ones.
pub fn all(sink: &mut dyn Sink, plan: &Plan) {
    values_and_regions(sink, plan);
    pages(sink, plan);
    gaps(sink, plan);
    carving(sink, plan);
    let before = GROUPS.len() + PAGE_GROUPS.len() + GAP_GROUPS.len() + CARVING_GROUPS.len();
    groups(sink, plan, &PADDING_GROUPS, before);
}

/// The worked ones, without their names.
pub fn worked(sink: &mut dyn Sink) {
    for part in worked::all() {
        if let Worked::Case { case, .. } = part {
            sink.put(case);
        }
    }
}

/// The calls on values, regions and statements.
fn values_and_regions(sink: &mut dyn Sink, plan: &Plan) {
    groups(sink, plan, &GROUPS, 0);
    if plan.large {
        large::all(sink, &mut Random::new(plan.seed), plan.long);
    }
}

/// The calls on pages.
fn pages(sink: &mut dyn Sink, plan: &Plan) {
    groups(sink, plan, &PAGE_GROUPS, GROUPS.len());
    if plan.large {
        large::databases(sink, plan.long);
    }
}

/// The carver of gaps and freed blocks.
fn gaps(sink: &mut dyn Sink, plan: &Plan) {
    groups(sink, plan, &GAP_GROUPS, GROUPS.len() + PAGE_GROUPS.len());
    if plan.large {
        large::gaps(sink);
    }
}

/// The three modes, and learning.
fn carving(sink: &mut dyn Sink, plan: &Plan) {
    groups(sink, plan, &CARVING_GROUPS, GROUPS.len() + PAGE_GROUPS.len() + GAP_GROUPS.len());
    if plan.large {
        large::carving(sink);
    }
}

/// Each group has its own stream, so that one more case in one does not change the others.
fn groups(sink: &mut dyn Sink, plan: &Plan, groups: &[(usize, Group)], streams_before: usize) {
    for (i, (share, group)) in groups.iter().enumerate() {
        let stream = (streams_before + i) as u64;
        let mut random = Random::new(plan.seed.wrapping_add(stream << 32));
        group(sink, &mut random, plan.random / 100 * share);
    }
}
