//! Section 2: varints and values.

use super::making::*;
use super::padding;
use super::Worked;

pub fn all() -> Vec<Worked> {
    [varints(), lengths(), integers(), values(), places(), padding::varints()].into_iter().flatten().collect()
}

fn varints() -> Vec<Worked> {
    vec![
        heading("2.1, 2.2 Varints: there is one, its value, its bytes, whether it was padded"),
        varint("127, the largest of one byte", "7f", 0),
        varint("128, the smallest that needs two", "8100", 0),
        varint("5 in two bytes", "8005", 0),
        varint("eight bytes, seven bits of each", "ffffffffffffff 7f", 0),
        varint("nine bytes: all eight bits of the ninth", "8080808080808080 ff", 0),
        varint("nine bytes, all bits", "ffffffffffffffff ff", 0),
        varint("at 1", "05 8100", 1),
        heading("2.3 Varints that are none"),
        varint("an empty slice", "", 0),
        varint("eight bytes that ask for more", "8080808080808080", 0),
        varint("at the slice's end", "05", 1),
        heading("2.4 The bytes that reading looks at where a varint runs off, as the count of a scan with one attempt"),
        scan("a header length that runs off", "808080", "05", 0, 0, 1),
        scan("a type that runs off", "02 8080", "05", 0, 0, 1),
    ]
}

fn lengths() -> Vec<Worked> {
    let mut all = vec![heading("2.5 The length of a type's body: there is one, its bytes")];
    all.extend((0..=13).map(|kind| body(format!("type {kind}"), kind)));
    all.push(body("the largest odd type", u64::MAX));
    all
}

/// The bytes of each integer type.
const INTEGERS: [(u64, usize); 6] = [(1, 1), (2, 2), (3, 3), (4, 4), (5, 6), (6, 8)];

fn integers() -> Vec<Worked> {
    let mut all = vec![heading("2.6, 2.7 Integers: tag 2, 64 bits, nothing, bytes taken")];
    for (kind, bytes) in INTEGERS {
        let width = if bytes == 1 { "1 byte".into() } else { format!("{bytes} bytes") };
        let number = |top: u8, rest: u8| [vec![top], times(rest, bytes - 1)].concat();
        all.push(decode(format!("{width}: the smallest"), kind, number(0x80, 0), 0));
        all.push(decode(format!("{width}: the largest"), kind, number(0x7F, 0xFF), 0));
        all.push(decode(format!("{width}: -1"), kind, number(0xFF, 0xFF), 0));
        all.push(decode(format!("{width}: 0"), kind, number(0, 0), 0));
    }
    all
}

fn values() -> Vec<Worked> {
    vec![
        heading("2.7 Reals by their bits: tag 3, bits, nothing, bytes taken"),
        decode("1.0", 7, "3ff0000000000000", 0),
        decode("-0.0", 7, "8000000000000000", 0),
        decode("the smallest above 0", 7, "0000000000000001", 0),
        decode("the largest", 7, "7fefffffffffffff", 0),
        decode("infinity", 7, "7ff0000000000000", 0),
        decode("minus infinity", 7, "fff0000000000000", 0),
        decode("the NaN of the lowest bits", 7, "7ff0000000000001", 0),
        decode("the NaN of all bits", 7, "ffffffffffffffff", 0),
        heading("2.7 Blobs and texts: tag 5 or 4, nothing, start, bytes taken"),
        decode("a blob of two bytes", 16, "616263", 1),
        decode("a text of two bytes", 17, "616263", 1),
        decode("a text that is not UTF-8", 15, "ff", 0),
    ]
}

fn places() -> Vec<Worked> {
    vec![
        heading("2.8 Bodies at and behind the slice's end"),
        decode("NULL, tag 1, at 2^64 - 1", 0, "", u64::MAX),
        decode("type 8, the integer 0, behind the slice", 8, "00", 2),
        decode("type 9, the integer 1, behind the slice", 9, "00", 2),
        decode("an empty blob at the end", 12, "00", 1),
        decode("an empty blob behind the end", 12, "00", 2),
        heading("2.9 No value"),
        decode("type 10", 10, "00", 0),
        decode("type 11", 11, "00", 0),
        decode("a real of seven bytes", 7, "00000000000000", 0),
        decode("a body whose end would pass 2^64 - 1", 2, "0000", u64::MAX),
    ]
}
