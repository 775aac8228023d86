//! Which cases show a change of the rules. This needs neither the Rust nor an archive.

use super::{changes, Change};
use crate::calls;
use crate::case::Case;
use crate::cases;
use crate::random::Random;
use crate::rules::limits::Limits;
use crate::runner::Sink;

/// The rules as they are, against those with one change.
struct Noticing<'a> {
    rules: Limits,
    changed: Limits,
    call: u8,
    may_be: &'a dyn Fn(&Case) -> bool,
    first: Option<Case>,
}

impl Sink for Noticing<'_> {
    fn put(&mut self, case: Case) {
        if self.first.is_none() && case.call == self.call && (self.may_be)(&case) {
            let answer = calls::of(&case).answer;
            let noticed = answer(&self.rules, &case) != answer(&self.changed, &case);
            self.first = noticed.then_some(case);
        }
    }
}

/// The first case of a change that shows it, of those that it may be; else a worked one, which is recorded in any case.
fn first(change: &Change, may_be: &dyn Fn(&Case) -> bool) -> Option<Case> {
    let mut changed = Limits::of_the_rules();
    (change.change)(&mut changed);
    let mut noticing = Noticing { rules: Limits::of_the_rules(), changed, call: change.call, may_be, first: None };
    (change.cases)(&mut noticing, &mut Random::new(1), 0);
    noticing.may_be = &|_| true;
    cases::worked(&mut noticing);
    noticing.first
}

/// For each change a case that shows it, if there is one among those that it may be.
pub fn one_of_each(sink: &mut dyn Sink, may_be: &dyn Fn(&Case) -> bool) {
    changes().filter_map(|change| first(change, may_be)).for_each(|case| sink.put(case));
}

#[cfg(test)]
mod tests {
    use super::*;
    use crate::recording::{has_room, records};

    /// What no recorded case can show.
    const TOO_LONG: [&str; 6] = [
        "a region of 16,777,216 bytes is refused",
        "a rebuilt row of 65,535 bytes is too long",
        "a rebuilt row may have 65,536 bytes",
        "1,024 rows to learn from are refused",
        "a database of 16,777,216 bytes is refused",
        "a header length takes two bytes with 126 bytes of types",
    ];

    #[test]
    fn the_cases_show_each_change() {
        let hidden = changes().filter(|change| first(change, &|_| true).is_none());
        assert_eq!(hidden.map(|change| change.what).collect::<Vec<_>>(), [""; 0]);
    }

    #[test]
    fn recorded_cases_show_all_but_what_is_too_long() {
        let recorded = changes().filter(|change| records(change.call));
        let hidden = recorded.filter(|change| first(change, &has_room).is_none());
        assert_eq!(hidden.map(|change| change.what).collect::<Vec<_>>(), TOO_LONG);
    }
}
