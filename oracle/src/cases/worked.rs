//! The worked examples: named cases under headings, in the order of docs/RULES.md, for a reader who has the rules beside
//! what the cases answer.

mod attempts;
mod entries;
mod freeblocks;
mod gaps;
mod learned;
mod making;
mod modes;
mod padding;
mod pages;
mod rebuilding;
mod refusals;
mod rows;
mod shares;
mod statements;
mod tables;
mod tablet;
mod values;

use crate::case::Case;

pub enum Worked {
    /// The numbers of rules, and words.
    Heading(String),
    /// The name says what the case shows; none comes twice under a heading.
    Case { name: String, case: Case },
}

pub fn all() -> Vec<Worked> {
    let sections = [
        refusals::all(),
        values::all(),
        entries::all(),
        attempts::all(),
        rows::all(),
        shares::all(),
        statements::all(),
        pages::all(),
        tables::all(),
        freeblocks::all(),
        gaps::all(),
        rebuilding::all(),
        modes::all(),
        learned::all(),
    ];
    sections.into_iter().flatten().collect()
}

#[cfg(test)]
mod tests {
    use super::*;
    use crate::calls::{self, CALLS};
    use crate::compare::{against_the_rust, expected};
    use crate::rules::limits::Limits;
    use crate::text;
    use std::collections::HashSet;

    fn shape(case: &Case) -> [usize; 4] {
        [case.numbers.len(), case.slices.len(), case.words.len(), case.lists.len()]
    }

    fn fits(name: &str, case: &Case) -> bool {
        let bytes: usize = case.slices.iter().map(Vec::len).sum();
        let words: usize = case.words.iter().map(Vec::len).sum();
        case.slices.iter().all(|slice| slice.len() <= 70_000)
            && case.words.iter().all(|words| words.len() <= 2400)
            && case.lists.iter().all(|&cells| cells <= 4096)
            && name.len() + bytes + 8 * words <= 100_000
    }

    /// The first rule of a heading.
    fn first_rule(words: &str) -> Option<[u8; 2]> {
        let (section, rule) = words.split([' ', ',']).next()?.split_once('.')?;
        Some([section.parse().ok()?, rule.parse().ok()?])
    }

    #[test]
    fn worked_headings_follow_the_rules() {
        let headings = all().into_iter().filter_map(|worked| match worked {
            Worked::Heading(words) => Some(words),
            Worked::Case { .. } => None,
        });
        let mut last = [0, 0];
        for words in headings {
            let rule = first_rule(&words);
            assert!(rule >= Some(last) && words.len() < 400, "{words}");
            last = rule.unwrap_or(last);
        }
    }

    #[test]
    fn worked_cases_have_shapes_names_and_answers() {
        let limits = Limits::of_the_rules();
        let mut under_this = HashSet::new();
        let (mut numbers, mut made) = (HashSet::new(), HashSet::new());
        for worked in all() {
            let (name, case) = match worked {
                Worked::Heading(_) => {
                    under_this.clear();
                    continue;
                }
                Worked::Case { name, case } => (name, case),
            };
            assert!(!name.is_empty() && name.len() < 120 && !name.contains(char::is_control), "{name}");
            let call = calls::of(&case);
            assert_eq!(shape(&case), [call.numbers, call.slices, call.words, call.lists.len()], "{name}");
            assert!(fits(&name, &case), "{name}");
            assert_eq!(text::parse(&text::line(&case)).as_ref(), Some(&case), "{name}");
            let (answer, asked) = expected(&limits, &case);
            assert_eq!(against_the_rust(&case, &asked), None, "{name}: {}", text::line(&case));
            numbers.insert(answer.number);
            made.insert(case.call);
            assert!(under_this.insert(name.clone()), "twice: {name}");
        }
        assert_eq!(numbers, HashSet::from_iter(0..=9));
        assert_eq!(made, HashSet::from_iter(1..=CALLS.len() as u8));
    }
}
