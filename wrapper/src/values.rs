//! Varints, serial types, values and column entries.

use crate::door::{self, ENTRY_WORDS};
use crate::Refusal;
use std::borrow::Cow;
use std::str;

/// A value, with the bytes of a text or a blob where they lie. It prints as SQL would write it, but for a text: that stands in
/// double quotes, a quote or a backslash in it behind a backslash, and what is no readable character as `\\x` and two digits.
///
/// ```
/// # use phsarodil::Value;
/// let values = [Value::Integer(42), Value::Real(20.0), Value::Text("caf\u{e9}\n"), Value::Blob(&[0, 255])];
/// assert_eq!(values.map(|value| value.to_string()), ["42", "20.0", "\"caf\u{e9}\\x0a\"", "x'00ff'"]);
/// ```
#[derive(Clone, Copy, Debug, PartialEq)]
pub enum Value<'a> {
    /// NULL.
    Null,
    /// An integer; a REAL column's whole values are stored as integers, too.
    Integer(i64),
    /// A real; a NaN keeps its payload.
    Real(f64),
    /// A text. Whether the database's texts are UTF-8 its header says; one of another encoding may pass for it.
    Text(&'a str),
    /// A text whose bytes are not UTF-8.
    TextBytes(&'a [u8]),
    /// Bytes.
    Blob(&'a [u8]),
}

impl<'a> Value<'a> {
    /// The value of a tag, the bits of a number, and the bytes of a text or a blob; `None` for the tag 0.
    fn of(tag: u64, bits: u64, bytes: &'a [u8], start: u64, length: u64) -> Option<Value<'a>> {
        let part = || &bytes[start as usize..][..length as usize];
        Some(match tag {
            0 => return None,
            1 => Value::Null,
            2 => Value::Integer(bits as i64),
            3 => Value::Real(f64::from_bits(bits)),
            4 => str::from_utf8(part()).map_or(Value::TextBytes(part()), Value::Text),
            5 => Value::Blob(part()),
            other => unreachable!("a tag is 0 to 5, not {other}"),
        })
    }

    /// The bytes of a text or a blob.
    pub fn bytes(self) -> Option<&'a [u8]> {
        match self {
            Value::Text(text) => Some(text.as_bytes()),
            Value::TextBytes(bytes) | Value::Blob(bytes) => Some(bytes),
            _ => None,
        }
    }

    /// A text, with U+FFFD in place of what is not UTF-8.
    ///
    /// ```
    /// # use phsarodil::Value;
    /// assert_eq!(Value::TextBytes(b"caf\xe9").text_lossy().unwrap(), "caf\u{fffd}");
    /// assert_eq!(Value::Blob(b"caf").text_lossy(), None);
    /// ```
    pub fn text_lossy(self) -> Option<Cow<'a, str>> {
        match self {
            Value::Text(text) => Some(Cow::Borrowed(text)),
            Value::TextBytes(bytes) => Some(String::from_utf8_lossy(bytes)),
            _ => None,
        }
    }
}

/// A varint that was read.
#[derive(Clone, Copy, Debug, PartialEq, Eq, Hash)]
#[non_exhaustive]
pub struct Varint {
    /// Its value.
    pub value: u64,
    /// How many bytes it takes, 1 to 9.
    pub length: usize,
    /// Whether that is more than the shortest varint of its value takes. SQLite writes none that is.
    pub padded: bool,
}

/// The varint at `offset`, or `None` where it runs off the slice.
///
/// ```
/// # use phsarodil::read_varint;
/// let [short, padded] = [0, 1].map(|offset| read_varint(&[0x01, 0x80, 0x01], offset).unwrap());
/// assert_eq!((short.value, short.length, short.padded), (1, 1, false));
/// assert_eq!((padded.value, padded.length, padded.padded), (1, 2, true));
/// ```
pub fn read_varint(bytes: &[u8], offset: usize) -> Option<Varint> {
    let (_, [found, value, taken, padded]) = door::read_varint(bytes, offset);
    (found == 1).then_some(Varint {
        value,
        length: taken as usize,
        padded: padded == 1,
    })
}

/// The body length of a serial type; the types 10 and 11 have none.
pub fn body_length(kind: u64) -> Option<u64> {
    let (_, [known, length]) = door::body_length(kind);
    (known == 1).then_some(length)
}

/// The value of a serial type whose body starts at `offset` and the bytes that the body takes, or `None` where the type
/// is 10 or 11 or the body leaves the slice. The types 0, 8 and 9 have no body, so they have a value at any offset,
/// behind the slice too; any other body, an empty one too, ends in the slice.
pub fn decode_serial_type(kind: u64, bytes: &[u8], offset: usize) -> Option<(Value<'_>, usize)> {
    let (_, [tag, bits, start, taken]) = door::decode_serial_type(kind, bytes, offset);
    Some((Value::of(tag, bits, bytes, start, taken)?, taken as usize))
}

/// What became of a column. All but [`State::Body`] read as NULL; [`carve_freeblock`](crate::carve_freeblock) alone gives
/// the next two.
#[derive(Clone, Copy, Debug, PartialEq, Eq, Hash)]
pub enum State {
    /// The body is there.
    Body = 0,
    /// The body does not fit, or the type is 10 or 11.
    Unfit = 1,
    /// The column's type was overwritten.
    Lost = 2,
    /// The entry pads its row's group.
    Unused = 3,
}

impl State {
    fn of(word: u64) -> State {
        match word {
            0 => State::Body,
            1 => State::Unfit,
            2 => State::Lost,
            3 => State::Unused,
            other => unreachable!("a state is 0 to 3, not {other}"),
        }
    }
}

/// A column entry.
#[derive(Clone, Copy, Debug, PartialEq, Eq, Hash)]
pub struct Entry {
    /// What became of the column.
    pub state: State,
    /// The serial type.
    pub kind: u64,
    /// Where the body starts, in the bytes that the row was found in.
    pub start: u64,
    /// How many bytes the body has.
    pub length: u64,
}

impl Entry {
    pub(crate) fn of(words: &[u64]) -> Entry {
        Entry {
            state: State::of(words[0]),
            kind: words[1],
            start: words[2],
            length: words[3],
        }
    }

    pub(crate) fn words(self) -> [u64; ENTRY_WORDS] {
        [self.state as u64, self.kind, self.start, self.length]
    }

    /// The entry's value over the bytes that its row was found in.
    ///
    /// # Errors
    ///
    /// [`Refusal::Malformed`] for a bad entry: a body whose length is not its type's, whose type is 10 or 11, or that ends
    /// behind these bytes, whatever its type.
    pub fn read(self, bytes: &[u8]) -> Result<Value<'_>, Refusal> {
        let (number, [tag, bits, start, length]) = door::read_entry(self.words(), bytes);
        Refusal::check(number)?;
        Ok(Value::of(tag, bits, bytes, start, length).expect("what is not refused has a value"))
    }

    /// The bytes of a text or a blob; any other entry, a bad one too, has none.
    pub fn view(self, bytes: &[u8]) -> &[u8] {
        let (_, [start, length]) = door::view_entry(self.words(), bytes);
        &bytes[start as usize..][..length as usize]
    }
}

#[cfg(test)]
mod tests {
    use super::*;

    /// A value as a varint of so many bytes: the ninth has eight bits of it, any other seven.
    fn written(value: u64, length: usize) -> Vec<u8> {
        let (last, rest) = match length {
            9 => (value as u8, value >> 8),
            _ => (value as u8 & 0x7f, value >> 7),
        };
        let first = (0..length - 1)
            .rev()
            .map(|i| (rest >> (7 * i)) as u8 | 0x80);
        first.chain([last]).collect()
    }

    #[test]
    fn varints_of_every_width() {
        // The least value that takes one byte, two, and so on.
        let least = [
            0,
            1 << 7,
            1 << 14,
            1 << 21,
            1 << 28,
            1 << 35,
            1 << 42,
            1 << 49,
            1_u64 << 56,
        ];
        for width in 1..=9 {
            let last = least.get(width).map_or(u64::MAX, |next| next - 1);
            for length in width..=9 {
                for value in [least[width - 1], last] {
                    let bytes = [&[0xff], &written(value, length)[..], &[0xff]].concat();
                    let padded = length > width;
                    let read = read_varint(&bytes, 1).unwrap();
                    assert_eq!(
                        (read.value, read.length, read.padded),
                        (value, length, padded)
                    );
                    assert_eq!(read_varint(&bytes[..length], 1), None);
                }
            }
        }
    }

    #[test]
    fn varints() {
        let read = |bytes: &[u8], offset| {
            read_varint(bytes, offset).map(|read| (read.value, read.length, read.padded))
        };
        assert_eq!(read(&[0x81, 0x00], 0), Some((128, 2, false)));
        assert_eq!(read(&[0x7f, 0x80, 0x02], 1), Some((2, 2, true)));
        assert_eq!(read(&[0xff; 9], 0), Some((u64::MAX, 9, false)));
        assert_eq!(read(&[0x80, 0x00], 0), Some((0, 2, true)));
        assert_eq!(read(&[0x81], 0), None);
        assert_eq!(read(&[], usize::MAX), None);
    }

    #[test]
    fn lengths() {
        assert_eq!(
            [0, 5, 7, 9].map(body_length),
            [Some(0), Some(6), Some(8), Some(0)]
        );
        assert_eq!(
            [10, 11, 12, 13].map(body_length),
            [None, None, Some(0), Some(0)]
        );
        assert_eq!(body_length(u64::MAX), Some((u64::MAX - 13) / 2));
    }

    #[test]
    fn integers_keep_their_sign() {
        let int = |kind, bytes: &[u8]| match decode_serial_type(kind, bytes, 0) {
            Some((Value::Integer(v), n)) => (v, n),
            other => panic!("{other:?}"),
        };
        assert_eq!(int(1, &[0x80]), (-128, 1));
        assert_eq!(int(3, &[0x80, 0, 0]), (-8388608, 3));
        assert_eq!(int(5, &[0xff, 0xff, 0xff, 0xff, 0xff, 0xfe]), (-2, 6));
        assert_eq!(int(6, &[0x80, 0, 0, 0, 0, 0, 0, 0]), (i64::MIN, 8));
        assert_eq!(
            int(6, &[0x7f, 0xff, 0xff, 0xff, 0xff, 0xff, 0xff, 0xff]),
            (i64::MAX, 8)
        );
        assert_eq!(int(9, &[]), (1, 0));
    }

    #[test]
    fn reals_keep_their_bits() {
        let payload = 0x7ff8_0000_0000_1234_u64;
        let mut bytes = vec![0xaa];
        bytes.extend(payload.to_be_bytes());
        match decode_serial_type(7, &bytes, 1) {
            Some((Value::Real(x), 8)) => assert_eq!(x.to_bits(), payload),
            other => panic!("{other:?}"),
        }
        assert_eq!(decode_serial_type(7, &bytes, 2), None);
    }

    #[test]
    fn texts_and_blobs_are_parts_of_the_slice() {
        assert_eq!(
            decode_serial_type(23, b"..hipik", 2),
            Some((Value::Text("hipik"), 5))
        );
        assert_eq!(
            decode_serial_type(16, b"..hipik", 2),
            Some((Value::Blob(b"hi"), 2))
        );
        assert_eq!(
            decode_serial_type(19, b"A\xffB", 0),
            Some((Value::TextBytes(b"A\xffB"), 3))
        );
        assert_eq!(decode_serial_type(23, b"..hipik", 3), None);
        assert_eq!(decode_serial_type(10, b"..hipik", 0), None);
    }

    #[test]
    fn bytes_and_lossy_texts() {
        assert_eq!(Value::Text("h").bytes(), Some(&b"h"[..]));
        assert_eq!(Value::TextBytes(b"\xff").bytes(), Some(&b"\xff"[..]));
        assert_eq!(Value::Blob(b"").bytes(), Some(&b""[..]));
        assert_eq!(Value::Integer(1).bytes(), None);
        assert_eq!(Value::Text("h").text_lossy(), Some(Cow::Borrowed("h")));
        assert_eq!(
            Value::TextBytes(b"A\xff").text_lossy().as_deref(),
            Some("A\u{fffd}")
        );
        assert_eq!(Value::Null.text_lossy(), None);
    }

    #[test]
    fn entries() {
        let text = Entry {
            state: State::Body,
            kind: 23,
            start: 2,
            length: 5,
        };
        assert_eq!(text.read(b"..hipik"), Ok(Value::Text("hipik")));
        assert_eq!(text.view(b"..hipik"), b"hipik");
        assert_eq!(text.read(b"..hipi"), Err(Refusal::Malformed));
        assert_eq!(text.view(b"..hipi"), b"");
        for state in [State::Unfit, State::Lost, State::Unused] {
            assert_eq!(Entry { state, ..text }.read(b""), Ok(Value::Null));
        }
        assert_eq!(
            Entry { length: 4, ..text }.read(b"..hipik"),
            Err(Refusal::Malformed)
        );
        let number = Entry {
            state: State::Body,
            kind: 1,
            start: 0,
            length: 1,
        };
        assert_eq!(number.read(b"*"), Ok(Value::Integer(42)));
        assert_eq!(number.view(b"*"), b"");
    }

    #[test]
    fn behind_the_slice() {
        let null = Entry {
            state: State::Body,
            kind: 0,
            start: 1,
            length: 0,
        };
        assert_eq!(null.read(b""), Err(Refusal::Malformed));
        assert_eq!(decode_serial_type(0, b"", 1), Some((Value::Null, 0)));
        assert_eq!(decode_serial_type(12, b"", 0), Some((Value::Blob(b""), 0)));
        assert_eq!(decode_serial_type(12, b"", 1), None);
    }
}
