//! The tables of docs/BENCH.md, as they stand there.

use super::rows::{Back, Counts};
use super::{List, Measured, Of, Way, OF_FREE_SPACE};

const PAGES: [usize; 4] = [512, 1024, 4096, 65_536];
/// Of the wide tables.
const LARGE_PAGES: [usize; 2] = [4096, 65_536];
const NOTES: [&str; 3] = ["short", "middle", "long"];
const SOME: &[&str] = &["some"];
const EACH: &[&str] = &["some", "end", "all"];
/// As they are lent to a call that looks for whole records.
const WHOLE: &[List] = &[List::All, List::NullForKey];
const EVERY: &[List] = &[List::All, List::FromSecond, List::NullForKey, List::BehindKey, List::BothOfKey];
const BEST: &[List] = &[List::All, List::BothOfKey];

/// Which rows of a table are shown before all of them.
type Chosen = fn(&Back) -> Counts;

/// One way, on tables of these sizes, with rows deleted in these manners.
struct Table {
    title: &'static str,
    way: Way,
    sizes: &'static [usize],
    lists: &'static [List],
    deletions: &'static [&'static str],
    chosen: Chosen,
}

const KEPT: Table =
    Table { title: "", way: Way::Exact, sizes: &[100, 1000], lists: EVERY, deletions: SOME, chosen: |back| back.kept };

const TABLES: [Table; 11] = [
    Table {
        title: "All that comes back, without pieces",
        way: Way::Together,
        lists: BEST,
        chosen: |back| back.apart,
        ..KEPT
    },
    Table { title: "In free space, exactly", ..KEPT },
    Table { title: "In free space, exactly, without pieces", lists: BEST, chosen: |back| back.apart, ..KEPT },
    Table {
        title: "In free space, one byte for each type",
        way: Way::OneByte,
        sizes: &[1000],
        lists: &[List::All, List::NullForKey, List::BehindKey],
        ..KEPT
    },
    Table { title: "In free space, without guesses", way: Way::NoGuesses, lists: BEST, ..KEPT },
    Table { title: "In freed blocks", way: Way::Freed, lists: WHOLE, ..KEPT },
    Table { title: "At every offset", way: Way::Offsets, lists: WHOLE, deletions: EACH, ..KEPT },
    Table { title: "By the scan", way: Way::Scan, sizes: &[1000], lists: WHOLE, deletions: EACH, ..KEPT },
    Table {
        title: "In the gap, lent as a freed block, exactly, without pieces",
        way: Way::Gap,
        lists: BEST,
        deletions: &["end"],
        chosen: |back| back.apart,
        ..KEPT
    },
    Table { title: "In three modes, with the third apart", way: Way::Modes, lists: WHOLE, ..KEPT },
    Table { title: "By learned types", way: Way::Learned, sizes: &[1000], lists: WHOLE, deletions: EACH, ..KEPT },
];

pub fn print(measured: &Measured) {
    for table in &TABLES {
        table.print(measured);
    }
    print_values(measured);
    print_logs(measured);
    print_wide(measured);
    print_padded(measured);
    print_behind_the_key(measured);
    print_losses(measured);
}

/// What looks for whole records needs a hint for the key, too.
fn print_behind_the_key(measured: &Measured) {
    for way in [Way::Scan, Way::Offsets] {
        let lent = |of: &&Of| of.list == List::BehindKey && of.way == way && !of.kind.ends_with("frames");
        let databases: Vec<&Of> = measured.back.keys().filter(lent).collect();
        let found: usize = databases.iter().map(|of| measured.back[*of].all.map_or(0, |all| all.deleted)).sum();
        println!("\n{way:?} with the hints behind the key: {found} deleted rows in {} databases", databases.len());
    }
}

/// How many deleted rows are found and not kept, and how many are kept and left out as pieces.
fn print_losses(measured: &Measured) {
    for way in OF_FREE_SPACE.into_iter().chain([Way::Scan, Way::Offsets, Way::Together]) {
        let (mut kept, mut apart) = (0, 0);
        for (_, back) in measured.back.iter().filter(|(of, _)| of.way == way && !of.kind.contains("whole")) {
            kept += back.all.map_or(0, |all| all.deleted - back.kept.deleted);
            apart += back.kept.deleted - back.apart.deleted;
        }
        println!("{way:?}: deleted rows lost by keeping {kept}, without pieces {apart} more");
    }
}

impl Table {
    fn print(&self, measured: &Measured) {
        head(self.title, &["Rows", "Hints", "Notes", "Deleted"]);
        for size in self.sizes {
            for list in self.lists {
                for deletion in self.deletions {
                    self.print_notes(measured, *size, *list, deletion);
                }
            }
        }
    }

    fn print_notes(&self, measured: &Measured, size: usize, list: List, deletion: &str) {
        for note in NOTES {
            let kind = format!("{}-{size}-{note}-{deletion}", table_of(list));
            if let Some(deleted) = measured.deleted.get(&kind) {
                let first =
                    [size.to_string(), shown(list).into(), note.into(), format!("{}: {deleted}", manner(deletion))];
                line(&first, &cells(measured, &kind, list, self.way, self.chosen));
            }
        }
    }
}

/// Free space in the exact mode, where values are others than in the tables above.
fn print_values(measured: &Measured) {
    head("Other values", &["Values", "Hints"]);
    let values = [("whole", "every second one whole"), ("hundredths", "hundredths")];
    for (kind, values) in values {
        let kind = format!("plain-1000-{kind}-some");
        for list in [List::All, List::AnyForReal] {
            let cells = cells(measured, &kind, list, Way::Exact, |back| back.kept);
            line(&[values.into(), shown(list).into()], &cells);
        }
    }
}

fn print_logs(measured: &Measured) {
    head("With the log kept", &["Hints", "File", "By"]);
    let ways = [
        (Way::Scan, "the scan"),
        (Way::Offsets, "every offset"),
        (Way::NoGuesses, "free space, no guesses"),
        (Way::Exact, "free space, exact"),
    ];
    for list in WHOLE {
        for (file, end) in [("the database", ""), ("the log", "-frames")] {
            for (way, by) in ways {
                let kind = format!("{}-1000-short-some-log{end}", table_of(*list));
                let cells = cells(measured, &kind, *list, way, |back| back.kept);
                line(&[shown(*list).into(), file.into(), by.into()], &cells);
            }
        }
    }
}

fn print_wide(measured: &Measured) {
    println!("\nWide tables\n");
    let by = "The scan | Every offset | Freed blocks | Free space, no guesses | Free space, exact | Learned";
    println!("| Columns | Notes | Page size | {by} |");
    println!("|{}", "---|".repeat(9));
    for columns in [150, 500] {
        for note in &NOTES[..2] {
            for page in LARGE_PAGES {
                let kind = format!("wide{columns}-1000-{note}-some");
                let ways = [Way::Scan, Way::Offsets, Way::Freed, Way::NoGuesses, Way::Exact, Way::Learned];
                let cells = ways.map(|way| cell(measured, &kind, List::All, way, page, |back| back.kept));
                line(&[columns.to_string(), note.to_string(), page.to_string()], &cells);
            }
        }
    }
}

/// What the mark tells: how many are padded of the table's rows, deleted or not, and of those that are none, over all databases.
fn print_padded(measured: &Measured) {
    println!("\nPadded rows\n");
    println!("| By | The table's rows | Rows that are none | Those of them that are kept |");
    println!("|{}", "---|".repeat(4));
    let ways = [
        (Way::Scan, "the scan"),
        (Way::Offsets, "every offset"),
        (Way::Freed, "freed blocks"),
        (Way::NoGuesses, "free space, no guesses"),
        (Way::OneByte, "free space, one byte"),
        (Way::Exact, "free space, exact"),
        (Way::Modes, "three modes"),
        (Way::Learned, "learned types"),
    ];
    for (way, by) in ways {
        let (mut padded, mut all, mut padded_kept, mut kept) = <(Counts, Counts, Counts, Counts)>::default();
        let of_way = |of: &Of| of.way == way && WHOLE.contains(&of.list) && !of.kind.ends_with("frames");
        for (_, back) in measured.back.iter().filter(|(of, _)| of_way(of)) {
            padded.add(back.padded);
            all.add(back.all.unwrap_or_default());
            padded_kept.add(back.padded_kept);
            kept.add(back.kept);
        }
        let share = |padded: usize, of: usize| format!("{padded} of {of}");
        let table = share(padded.deleted + padded.live, all.deleted + all.live);
        // Of the three modes none is kept for its confidence.
        let kept = if way == Way::Modes { "-".into() } else { share(padded_kept.none, kept.none) };
        line(&[by.into()], &[table, share(padded.none, all.none), kept]);
    }
}

fn head(title: &str, first: &[&str]) {
    println!("\n{title}\n");
    println!("| {} | {} |", first.join(" | "), PAGES.map(|page| page.to_string()).join(" | "));
    println!("|{}", "---|".repeat(first.len() + PAGES.len()));
}

fn line(first: &[String], cells: &[String]) {
    println!("| {} | {} |", first.join(" | "), cells.join(" | "));
}

fn cells(measured: &Measured, kind: &str, list: List, way: Way, chosen: Chosen) -> [String; 4] {
    PAGES.map(|page| cell(measured, kind, list, way, page, chosen))
}

/// The rows that are chosen, and all of them in brackets; a dash where there is no row at all.
fn cell(measured: &Measured, kind: &str, list: List, way: Way, page: usize, chosen: Chosen) -> String {
    let of = Of { kind: kind.to_string(), page, list, way };
    let Some(back) = measured.back.get(&of) else { return "not made".into() };
    match back.all {
        None => "refused".into(),
        Some(all) if all == Counts::default() => "-".into(),
        Some(all) => format!("{} ({})", counted(chosen(back)), counted(all)),
    }
}

fn counted(counts: Counts) -> String {
    format!("{}, {}, {}", counts.deleted, counts.live, counts.none)
}

fn table_of(list: List) -> &'static str {
    match list {
        List::All | List::FromSecond | List::AnyForReal => "plain",
        List::NullForKey | List::BehindKey | List::BothOfKey => "key",
    }
}

fn shown(list: List) -> &'static str {
    match list {
        List::All => "no key: all",
        List::FromSecond => "no key: from the second on",
        List::AnyForReal => "no key: Any for REAL",
        List::NullForKey => "key: with Null",
        List::BehindKey => "key: behind it",
        List::BothOfKey => "key: both",
    }
}

fn manner(deletion: &str) -> &'static str {
    match deletion {
        "some" => "here and there",
        "end" => "the end",
        _ => "all at once",
    }
}
