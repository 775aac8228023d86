//! Time: the best of some runs of each side.

use crate::work::{Prepared, Work};
use std::time::{Duration, Instant};

/// What else the machine does only adds, so the best run counts.
const RUNS: usize = 5;
/// A side that has taken so long in all is not run again.
const LONG: Duration = Duration::from_secs(3);

fn best(mut once: impl FnMut() -> Duration) -> Duration {
    let (mut least, mut all) = (Duration::MAX, Duration::ZERO);
    for _ in 0..RUNS {
        let taken = once();
        least = least.min(taken);
        all += taken;
        if all > LONG {
            break;
        }
    }
    least
}

/// Nanoseconds of the Rust, or `none`, and of ours.
pub fn print(work: &Work) {
    let mut prepared = Prepared::new(work);
    let ours = best(|| {
        let begun = Instant::now();
        prepared.run_ours(work);
        begun.elapsed()
    });
    let rust = prepared.rust.as_ref().map(|rust| {
        best(|| {
            let begun = Instant::now();
            let returned = rust(work.values.clone());
            let taken = begun.elapsed();
            drop(returned);
            taken
        })
    });
    let rust = rust.map_or("none".into(), |taken| taken.as_nanos().to_string());
    println!("{rust} {}", ours.as_nanos());
}
