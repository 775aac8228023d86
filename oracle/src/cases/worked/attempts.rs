//! Section 4: one attempt, and the region scan.

use super::making::*;
use super::Worked;

/// Three rows of a text each.
const THREE: &str = "020f61 020f62 020f63";

pub fn all() -> Vec<Worked> {
    [hints(), lengths(), types(), bodies(), sizes(), offsets(), counts(), single(), values()]
        .into_iter()
        .flatten()
        .collect()
}

/// Of each hint a few types that suit it, and some that do not.
fn hints() -> Vec<Worked> {
    let types: [(&str, u8, &[u64]); 6] = [
        ("Integer", INTEGER, &[0, 6, 7, 9]),
        ("Real", REAL, &[7, 8]),
        ("Text", TEXT, &[0, 12, 13]),
        ("Blob", BLOB, &[12, 13]),
        ("Null", NULL, &[0, 8]),
        ("Any", ANY, &[11]),
    ];
    let mut all = vec![heading("4.1, 1.3 Whether a type suits a hint, whose code is the first number")];
    for (name, hint, types) in types {
        all.extend(types.iter().map(|&kind| suits(format!("{name}, type {kind}"), hint, kind)));
    }
    all
}

fn lengths() -> Vec<Worked> {
    let one = |name: &str, region: &str| attempt(name, region, "05", 0, 0, 1);
    let many = |name: &str, region: Vec<u8>| attempt(name, region, times(ANY, 510), 0, 0, 1);
    vec![
        heading("4.2 The header length"),
        one("h 1", "01 08"),
        one("h 2", "02 08"),
        one("h 3 in two bytes of a region", "03 08"),
        one("h that runs off", "80"),
        many("h 512, with 510 types", joined(&[&"8400", &times(8, 510)])),
        many("h 513, with 510 types", joined(&[&"8401 8008", &times(8, 509)])),
    ]
}

fn types() -> Vec<Worked> {
    vec![
        heading("4.3 The types"),
        attempt("the last runs past h, and its body starts at h", "02 800f", "05", 0, 0, 1),
        scan("two types for one column: both are read, as the count shows", "03 08 08", "05", 0, 0, 1),
        attempt("the last runs off the region", "02 80", "05", 0, 0, 1),
        heading("4.4 As many types as columns, and one that suits"),
        attempt("one type for two columns", "02 08 00", "0000", 0, 0, 1),
        attempt("one of two suits", HIPIK, "0003", 0, 0, 1),
        attempt("none suits", HIPIK, "0303", 0, 0, 1),
    ]
}

fn bodies() -> Vec<Worked> {
    vec![
        heading("4.5 Bodies"),
        attempt("one behind the other", "04 01 0f 02  2a 61 0102", "050505", 0, 0, 1),
        attempt("the last a byte short", "04 01 0f 02  2a 61 01", "050505", 0, 0, 1),
        attempt("type 10", "03 0a 08 00", "0505", 0, 0, 1),
        attempt("type 11", "03 08 0b 00", "0505", 0, 0, 1),
        attempt("the last type ran past h by two", "03 01 80800f 61", "0505", 0, 0, 1),
    ]
}

/// A row with a header of four bytes and a text to its end, in a region of so many bytes.
fn text_row(last_of_the_type: u8, region: usize) -> Vec<u8> {
    joined(&[&"04 8880", &vec![last_of_the_type], &times(0, region - 4)])
}

fn sizes() -> Vec<Worked> {
    let one = |name: &str, region: Vec<u8>| attempt(name, region, "02", 0, 0, 1);
    let mut behind = text_row(7, 65_537);
    behind[4..8].copy_from_slice(&[4, 0x87, 0xFF, 0x7F]);
    vec![
        heading("4.6 Rows of the largest size, and one more"),
        one("65536 bytes in 65537", text_row(5, 65_537)),
        one("65536 bytes in 65536", text_row(5, 65_536)),
        one("65536 bytes in 65535", text_row(5, 65_535)),
        one("65537 bytes in 65537", text_row(7, 65_537)),
        scan("one of 65537 bytes, and in it one of 65533", behind, "02", 0, 0, 1),
    ]
}

fn offsets() -> Vec<Worked> {
    vec![
        heading("4.8 The offsets that a scan tries"),
        scan("the last two bytes are left out", "00 0208", "00", 0, 0, 1),
        scan("three columns: from a row on by its bytes", "04 000208 0209 00", "000000", 0, 0, 2),
        scan("a start in the first row", THREE, "02", 0, 1, 3),
        scan("a start behind the last offset", THREE, "02", 0, 7, 3),
        heading("4.9 The row of a scan"),
        scan("base 100, at 1, one of three suits", "00 04 080808 00", "000202", 100, 0, 1),
    ]
}

fn counts() -> Vec<Worked> {
    vec![
        heading("4.10, 4.7, 4.15 The count of header places"),
        scan("h 1: its byte", "01 08 08", "00", 0, 0, 1),
        scan("h 513: its two bytes", "8401 00", "00", 0, 0, 1),
        scan("the attempt whose row finds no room is left out", "01 0208 00", "00", 0, 0, 0),
        heading("4.11 Lists that are just full, and a row short"),
        scan("three rows, room for 3", THREE, "02", 0, 0, 3),
        scan("three rows, room for 2", THREE, "02", 0, 0, 2),
        scan("the rest, from the place that was answered", THREE, "02", 0, 6, 2),
    ]
}

fn single() -> Vec<Worked> {
    vec![
        heading("4.12 One attempt as a call"),
        attempt("a row in the last two bytes", "00 0208", "00", 100, 1, 1),
        attempt("a row, room for none", "0208", "00", 0, 0, 0),
        attempt("at the region's end", "0208", "00", 0, 2, 1),
    ]
}

fn values() -> Vec<Worked> {
    vec![
        heading("4.13 The values of a row are what its entries read as"),
        scan("the row 42, hipik", HIPIK, "0002", 0, 0, 1),
        read("its first entry", [0, 1, 3, 1], HIPIK),
        read("its second entry", [0, 23, 4, 5], HIPIK),
        heading("4.14 The layout sheet of a scan"),
        scan("refused: no word, the number, 0 and 0", "0208 0209 00", "06", 1000, 0, 2),
    ]
}
