//! 2.10, and 5.1 in its last word: padded varints, and the rows that they mark.

use super::making::*;
use super::tablet::{one_leaf, SIZE};
use super::Worked;
use crate::cases::bytes;

/// The numbers that are the first to take so many bytes, each in these, and the ones before them, in as many and so in one too many.
pub fn varints() -> Vec<Worked> {
    let mut all = vec![
        heading("2.10, 2.2 Varints: the last word is 1 if a shorter one has the value"),
        varint("0 in one byte", "00", 0),
        varint("0 in two bytes", "8000", 0),
        varint("1 in two bytes", "8001", 0),
        varint("127 in one byte", "7f", 0),
    ];
    for wide in 2..=9 {
        let exponent = 7 * (wide - 1);
        let first = 1 << exponent;
        all.push(varint(format!("2^{exponent} in {wide} bytes"), bytes::varint(first, wide), 0));
        all.push(varint(format!("2^{exponent} - 1 in {wide} bytes"), bytes::varint(first - 1, wide), 0));
    }
    all.extend([
        varint("0 in nine bytes", "8080808080808080 00", 0),
        varint("255 in nine bytes, all in the last of them", "8080808080808080 ff", 0),
        varint("2^64 - 1", "ffffffffffffffff ff", 0),
        varint("5 in one byte, at 1, behind one that asks for more", "80 05", 1),
        varint("one that runs off", "8080", 0),
    ]);
    all
}

/// Rows of each carver.
pub fn rows() -> Vec<Worked> {
    [headers(), blocks(), cells(), rebuilt(), modes_with_a_length(), modes_without(), learned(), pages()]
        .into_iter()
        .flatten()
        .collect()
}

fn headers() -> Vec<Worked> {
    let three = |name: &str, region: &str| attempt(name, region, "000000", 0, 0, 1);
    let blob = |name: &str, header: &str| attempt(name, joined(&[&header, &times(0, 58)]), "000003", 0, 0, 1);
    vec![
        heading("5.1, 2.10 The last word of a row: 1 if the length of its header or a type was padded"),
        three("none", "04 08 09 08"),
        three("the length", "8005 08 09 08"),
        three("the length, in nine bytes", "8080808080808080 0c 08 09 08"),
        three("the first type", "05 8008 09 08"),
        three("the type in the middle", "05 08 8009 08"),
        three("the last type", "05 08 09 8008"),
        three("all of them", "8008 8008 8009 8008"),
        three("the last type, which runs past the header's end", "04 08 09 8008"),
        blob("none: the last type takes two bytes", "05 08 09 8100"),
        blob("none: the last type takes two bytes and runs past the header's end", "04 08 09 8100"),
        blob("the last type, in three bytes for two", "06 08 09 808100"),
        attempt("none: bodies are no varints", "03 01 02 80 8000", "0000", 0, 0, 1),
        scan("a scan: the first row of two", "03 8008 02 08 00", "00", 0, 0, 2),
        scan("a scan: the second", "02 08 8003 08 00 00", "00", 0, 0, 2),
    ]
}

/// A page with a freed block at 8.
fn freed(payload: &str) -> Vec<u8> {
    let payload = payload.lent();
    joined(&[&"0d 0008 0000 0000 00 0000", &vec![0, 4 + payload.len() as u8], &payload])
}

fn blocks() -> Vec<Worked> {
    let lent = |name: &str, payload: &str| recover_slice(name, freed(payload), 0, 0, "0000", 1);
    let gap = |name: &str, page: &str| gap_slice(name, ONE_BYTE, page, [0, 0], "00", 1);
    vec![
        heading("5.1, 10.2, 11.2 The same of freed blocks and gaps"),
        lent("freed: none", "03 08 09"),
        lent("freed: the length", "8004 08 09"),
        lent("freed: the first type", "04 8008 09"),
        lent("freed: the last type, which runs past the header's end", "03 08 8009"),
        lent("freed: none, and a padded 3 begins before the row", "80 03 08 09"),
        gap("a gap: none", "0d 0000 0000 000c 00 0208 0000"),
        gap("a gap: the length", "0d 0000 0000 000d 00 8003 08 0000"),
        gap("a gap: the type", "0d 0000 0000 000d 00 03 8008 0000"),
    ]
}

fn cells() -> Vec<Worked> {
    let lent = |name: &str, payload: &str| block(name, ONE_BYTE, payload, 0, "02", 1);
    vec![
        heading("5.1, 11.4 The same of cells, whose own length and row id do not count; room for 1"),
        lent("none", "03 07 020f61"),
        lent("none: the cell's length", "8003 07 020f61"),
        lent("none: its row id", "03 8007 020f61"),
        lent("none: its length and its row id, in nine bytes each", "8080808080808080 03 8080808080808080 07 020f61"),
        lent("the header's length", "04 07 8003 0f 61"),
        lent("the type", "04 07 03 800f 61"),
        lent("the type, which runs past the header's end", "03 07 02 800f"),
        lent("the cell's length, its row id and the type", "8004 8007 03 800f 61"),
    ]
}

/// In the one-byte mode all types but the last take a byte.
fn rebuilt() -> Vec<Worked> {
    let one = |name: &str, payload: &str| block(name, ONE_BYTE, payload, 0, "000000", 1);
    let exact = |name: &str, payload: &str| block(name, EXACT, payload, 0, "000000", 1);
    vec![
        heading("5.1, 11.6, 11.9 The same of rebuilt headers, which have no length of their own"),
        one("one-byte: none", "08 09 08"),
        one("one-byte: the last type", "08 09 8008"),
        one("one-byte: none, and a padded type begins before the row", "8008 09 08"),
        block("one-byte: the first of three rows", ONE_BYTE, "8008 09", 0, "00", 3),
        exact("exact: none", "08 09 08"),
        exact("exact: the first type, room for 1", "8008 09 08"),
        exact("exact: the type in the middle", "08 8009 08"),
        exact("exact: the last type", "08 09 8008"),
        block("exact: the first of three rows", EXACT, "8008 09", 0, "00", 3),
        block("exact: none, and the made-up length takes two bytes", EXACT, times(8, 127), 0, times(0, 127), 1),
    ]
}

fn modes_with_a_length() -> Vec<Worked> {
    let lent = |name: &str, block: &str, columns| modes(name, block, 0, columns, 1);
    vec![
        heading("5.1, 12.1 The same in mode 1, where types behind the last column are not read"),
        lent("none", "03 08 09", 2),
        lent("the length", "8004 08 09", 2),
        lent("the first type", "04 8008 09", 2),
        lent("the last type", "04 08 8009", 2),
        lent("the last type, which runs past the header's end", "03 08 8009", 2),
        lent("none: the type behind the last column", "04 08 8009", 1),
        lent("the length, and the type behind the last column", "8005 08 8009", 1),
        lent("a type whose body does not fit", "03 8006", 1),
        modes("the second row of two", "02 08 03 8008", 0, 1, 2),
    ]
}

fn modes_without() -> Vec<Worked> {
    let lent = |name: &str, block: &str, columns| modes(name, block, 0, columns, 2);
    vec![
        heading("5.1, 12.6 The same in modes 2 and 3, which have types alone"),
        lent("none", "00 08 00 00 17 68 69", 2),
        lent("mode 2: the second type", "00 8008 00 17 68 69", 2),
        lent("mode 2: the first type, which is no length of mode 1", "8001 08 00 17 68", 2),
        lent("mode 3", "00 08 00 00 8017 68 69", 2),
        lent("both", "00 8008 00 8017 68 69", 2),
        lent("none: the type behind the last column", "00 8008 00", 1),
        lent("mode 3: none, and mode 2 reads across its first type", "00 00 00 80 08", 4),
    ]
}

fn learned() -> Vec<Worked> {
    let lent = |name: &str, region: &str, types: &[u64]| unallocated(name, region, types, 0, 1);
    vec![
        heading("5.1, 14.3 The same by learned types, behind the last of which none is read"),
        lent("none", "03 08 09", &[8, 8]),
        lent("the length", "8004 08 09", &[8, 8]),
        lent("the first type", "04 8008 09", &[8, 8]),
        lent("the last type", "04 08 8009", &[8, 8]),
        lent("the last type, which runs past the header's end", "03 08 8009", &[8, 8]),
        lent("none: the type behind the last one", "04 08 8009", &[8]),
        lent("a type that matches none", "04 8007 08 0000000000000000", &[8, 8]),
        lent("fewer types than learned ones", "03 8008 0a", &[8, 8]),
    ]
}

fn pages() -> Vec<Worked> {
    let table = tables(&[1], &[1], "00");
    let space = Space { flags: 1, stack: 1, rows: 1 };
    let mut all = vec![
        heading("5.1 The same on page 1 by its number, and in the table of root 1"),
        recover_page("a freed block, the length", one_leaf("8003 08"), SIZE, 1, "00", 1),
        recover("the table: a freed block, the length", one_leaf("8003 08"), SIZE, &table, space),
    ];
    for (mode, code) in [("one-byte", ONE_BYTE), ("exact", EXACT)] {
        let cell = one_leaf("03 07 8003 08");
        all.push(gap_page(format!("a cell, the length, {mode}"), code, &cell, [SIZE, 1], "00", 1));
        all.push(free_space(format!("the table: a cell, the length, {mode}"), code, &cell, SIZE, &table, space));
        let bare = one_leaf("8008");
        all.push(gap_page(format!("a rebuilt header, the type, {mode}"), code, &bare, [SIZE, 1], "00", 1));
        all.push(free_space(
            format!("the table: a rebuilt header, the type, {mode}"),
            code,
            &bare,
            SIZE,
            &table,
            space,
        ));
    }
    all
}
