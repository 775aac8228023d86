//! Section 9, 9.1 to 9.11: pages, and the walk to a table's leaves.

use super::making::*;
use super::tablet::{one_leaf, tablet, SIZE};
use super::Worked;

pub fn all() -> Vec<Worked> {
    [sizes(), numbers(), children(), pops(), walks()].into_iter().flatten().collect()
}

fn sizes() -> Vec<Worked> {
    vec![
        heading("9.1 Page sizes"),
        page_data("65536, of which this database has no page", times(0, 512), 65_536, 1),
        page_data("513", times(0, 1026), 513, 1),
        page_data("131072", times(0, 512), 131_072, 1),
    ]
}

fn numbers() -> Vec<Worked> {
    vec![
        heading("9.2, 9.4 A page by its number: its start, its length, and where its header stands"),
        page_data("page 1 of two and a rest", times(0, 1100), 512, 1),
        page_data("page 2 of two and a rest", times(0, 1100), 512, 2),
        page_data("the rest is no page", times(0, 1100), 512, 3),
        heading("9.3 Bytes past the page count as 0"),
        recover_slice("the place of the first freeblock is cut off", "0d 00", 0, 0, "00", 1),
    ]
}

/// Page 1, an interior page that says it has 65,535 cells; its 200 pointers are all 0, where no page number is. Page 2, its right child,
/// is a leaf.
fn pointers_to_the_end() -> Vec<u8> {
    let mut db = times(0, 1024);
    db[100..112].copy_from_slice(&[5, 0, 0, 0xFF, 0xFF, 0, 0, 0, 0, 0, 0, 2]);
    db[512] = 13;
    db
}

/// Page 1 with two cells, whose page number ends with the page, and a byte behind it; page 2 is a leaf.
fn children_at_the_end() -> Vec<u8> {
    let mut db = times(0, 1024);
    db[100..116].copy_from_slice(&[5, 0, 0, 0, 2, 0, 0, 0, 0, 0, 0, 9, 1, 0xFC, 1, 0xFD]);
    db[511] = 2;
    db[512] = 13;
    db
}

fn children() -> Vec<Worked> {
    vec![
        heading("9.5 Children"),
        leaves("a pointer past the page ends them: 201 are pushed", pointers_to_the_end(), 512, 1, [2, 201, 1]),
        leaves("one more than a stack of 200 takes", pointers_to_the_end(), 512, 1, [2, 200, 1]),
        leaves("a child to the page's end, and one past it: two are pushed", children_at_the_end(), 512, 1, [2, 2, 1]),
        leaves("one more than a stack of 1 takes", children_at_the_end(), 512, 1, [2, 1, 1]),
    ]
}

fn walks() -> Vec<Worked> {
    let walk = |name: &str, root, lists| leaves(name, tablet(), SIZE, root, lists);
    vec![
        heading(
            "9.7 to 9.11, 9.5 Leaves of a tablet of six pages: 1 has the children 2 (right), 3, 1, 0, 99 and 3; \
             2 has 5 (right), one past the page, 4, and 0 five times; 3 to 6 are leaves",
        ),
        walk("root 1", 1, [7, 7, 4]),
        walk("root 1, room for 3", 1, [6, 7, 3]),
        walk("root 1, room for 2", 1, [6, 7, 2]),
        walk("root 1, a stack of 6", 1, [6, 6, 4]),
        walk("root 1, no stack", 1, [6, 0, 4]),
        walk("root 1, 5 flags", 1, [5, 7, 4]),
        walk("root 1, a stack of 6 and room for none", 1, [6, 6, 0]),
        walk("root 2", 2, [6, 7, 4]),
        walk("root 6", 6, [6, 7, 4]),
        walk("root 7", 7, [6, 7, 4]),
        walk("root 0", 0, [6, 7, 4]),
        leaves("pages of 1024, root 2", tablet(), 1024, 2, [3, 7, 4]),
        leaves("pages of 256", tablet(), 256, 1, [6, 7, 4]),
    ]
}

fn pops() -> Vec<Worked> {
    let typed = |kind: u8| {
        let mut db = one_leaf("0208");
        db[100] = kind;
        db
    };
    vec![
        heading("9.6 What a page's type makes of it"),
        leaves("0x0A, which is neither", typed(0x0A), SIZE, 1, [1, 1, 1]),
    ]
}
