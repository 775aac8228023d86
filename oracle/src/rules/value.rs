//! Serial types: how long a body is, and the value that it stands for.

/// A value with the words that the C interface has for it.
#[derive(Clone, Copy, Debug, Default, PartialEq, Eq)]
pub struct Value {
    /// 0 none, 1 NULL, 2 integer, 3 real, 4 text, 5 blob.
    pub tag: u64,
    /// An integer's two's complement, or a real's pattern.
    pub bits: u64,
    /// Of a text or a blob.
    pub start: u64,
    pub length: u64,
}

pub const NULL: u64 = 1;
pub const INTEGER: u64 = 2;
pub const REAL: u64 = 3;
pub const TEXT: u64 = 4;
pub const BLOB: u64 = 5;

/// None for the reserved types.
pub fn body_length(kind: u64) -> Option<u64> {
    match kind {
        0 | 8 | 9 => Some(0),
        1..=4 => Some(kind),
        5 => Some(6),
        6 | 7 => Some(8),
        10 | 11 => None,
        _ => Some((kind - 12) / 2),
    }
}

/// Types that have no body at all, and so have a value at any place.
fn bodiless(kind: u64) -> bool {
    matches!(kind, 0 | 8 | 9)
}

pub fn decode(kind: u64, bytes: &[u8], at: u64) -> Option<Value> {
    let length = body_length(kind)?;
    let end = u128::from(at) + u128::from(length);
    if !bodiless(kind) && end > bytes.len() as u128 {
        return None;
    }
    let body = if length == 0 || bodiless(kind) { &[][..] } else { &bytes[at as usize..end as usize] };
    let place = Value { tag: 0, bits: 0, start: at, length };
    let number = |tag, bits| Value { tag, bits, start: 0, length };
    Some(match kind {
        0 => number(NULL, 0),
        1..=6 => number(INTEGER, signed(body)),
        7 => number(REAL, unsigned(body)),
        8 | 9 => number(INTEGER, kind - 8),
        _ if kind % 2 == 0 => Value { tag: BLOB, ..place },
        _ => Value { tag: TEXT, ..place },
    })
}

fn unsigned(body: &[u8]) -> u64 {
    body.iter().fold(0, |v, &b| v << 8 | u64::from(b))
}

/// The two's complement of the body, widened to 64 bits.
fn signed(body: &[u8]) -> u64 {
    let unused = 64 - 8 * body.len();
    ((unsigned(body) << unused) as i64 >> unused) as u64
}

/// The value of a column entry; none where it is bad.
pub fn read_entry(entry: [u64; 4], bytes: &[u8]) -> Option<Value> {
    let [state, kind, start, length] = entry;
    match state {
        0 => {
            let end = u128::from(start) + u128::from(length);
            if body_length(kind)? != length || end > bytes.len() as u128 {
                return None;
            }
            decode(kind, bytes, start)
        }
        1..=3 => Some(Value { tag: NULL, ..Value::default() }),
        _ => None,
    }
}
