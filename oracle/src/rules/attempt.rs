//! One attempt at an offset, and the scan over a region.

use crate::rules::limits::Limits;
use crate::rules::value::body_length;
use crate::rules::varint::{read, Varint};

/// A row that an attempt finds. Places count from the attempt's offset.
pub struct Found {
    pub header: u64,
    pub kinds: Vec<u64>,
    pub suited: usize,
    pub consumed: u64,
    /// Whether a number of its header was padded.
    pub padded: bool,
}

pub struct Attempt {
    /// How many header bytes it read.
    pub read: u64,
    pub found: Option<Found>,
}

pub fn suits(hint: u8, kind: u64) -> bool {
    match hint {
        0 => kind <= 6 || kind == 8 || kind == 9,
        1 => kind == 0 || kind == 7,
        2 => kind == 0 || (kind >= 13 && kind % 2 == 1),
        3 => kind == 0 || (kind >= 12 && kind % 2 == 0),
        4 => kind == 0,
        _ => hint == 5,
    }
}

pub fn attempt(limits: &Limits, region: &[u8], hints: &[u8], o: usize) -> Attempt {
    let part = region.get(o..).unwrap_or(&[]);
    attempt_on(limits, part, part.len(), hints)
}

/// An attempt at the first of so many bytes, of which all that it reads are given.
pub fn attempt_on(limits: &Limits, front: &[u8], length: usize, hints: &[u8]) -> Attempt {
    let own = match read(limits, front, 0) {
        Varint::Whole(own) => own,
        Varint::Cut(read) => return miss(read),
    };
    let header = own.value;
    let passed = header >= limits.least_header && header <= limits.most_header && header <= length as u64;
    if !passed {
        return miss(own.width);
    }
    let types = match types(limits, front, own.width, header, usize::MAX) {
        Ok(types) => types,
        Err(read) => return miss(read),
    };
    let read = types.end as u64;
    let padded = (limits.marks.header)(own.padded, types.padded);
    let found = judge(length, limits.consumed, hints, header, types);
    Attempt { read, found: found.map(|found| Found { padded, ..found }) }
}

/// Types that were read, where the last of them ends, and whether one was padded.
pub struct Types {
    pub kinds: Vec<u64>,
    pub end: usize,
    pub padded: bool,
}

/// The types from a place on until one ends at `until` or behind it, or there are `most` of them; or how many bytes there are
/// where one runs off.
pub fn types(limits: &Limits, part: &[u8], from: usize, until: u64, most: usize) -> Result<Types, usize> {
    let mut types = Types { kinds: Vec::new(), end: from, padded: false };
    while (types.end as u64) < until && types.kinds.len() < most {
        match read(limits, part, types.end) {
            Varint::Whole(kind) => {
                types.kinds.push(kind.value);
                types.end += kind.width;
                types.padded = (limits.marks.types)(types.padded, kind.padded);
            }
            Varint::Cut(more) => return Err(types.end + more),
        }
    }
    if limits.marks.unread && types.kinds.len() == most {
        types.padded |= self::types(limits, part, types.end, until, usize::MAX).is_ok_and(|rest| rest.padded);
    }
    Ok(types)
}

fn miss(read: usize) -> Attempt {
    Attempt { read: read as u64, found: None }
}

/// Whether the types make a row in so many bytes, of which it may take so many at most. Its mark is theirs.
pub fn judge(length: usize, most: u64, hints: &[u8], header: u64, types: Types) -> Option<Found> {
    let Types { kinds, padded, .. } = types;
    if kinds.len() != hints.len() {
        return None;
    }
    let suited = hints.iter().zip(&kinds).filter(|(h, k)| suits(**h, **k)).count();
    let mut end = u128::from(header);
    for &kind in &kinds {
        end += u128::from(body_length(kind)?);
    }
    let fits = suited > 0 && end <= length as u128 && end <= u128::from(most);
    fits.then_some(Found { header, kinds, suited, consumed: end as u64, padded })
}

/// What a scan comes to.
pub struct Scan {
    pub rows: Vec<(usize, Found)>,
    /// A row found no room.
    pub full: bool,
    pub place: usize,
    pub read: u64,
}

pub fn scan(limits: &Limits, region: &[u8], hints: &[u8], start: usize, room: usize) -> Scan {
    let mut scan = Scan { rows: Vec::new(), full: false, place: region.len(), read: 0 };
    let mut o = start;
    while o < region.len().saturating_sub(2) {
        let tried = attempt(limits, region, hints, o);
        let mut step = 1;
        if let Some(found) = tried.found {
            if scan.rows.len() == room {
                scan.full = true;
                scan.place = o;
                return scan;
            }
            step = found.consumed as usize;
            scan.rows.push((o, found));
        }
        scan.read += tried.read;
        o += step;
    }
    scan
}
