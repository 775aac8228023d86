//! Where a row can stand on a page.

use phsarodil::{read_varint, Record};
use std::ops::Range;

/// The type of a page that is a leaf of a table.
pub const TABLE_LEAF: u8 = 13;

/// The first bytes of a freed block: where the next one is, and its own size, two bytes each. SQLite writes them also where it then adds
/// the block to the gap, and leaves them where blocks are joined.
pub const LINK: usize = 4;

/// Before a record of a page stand at most its length, in three bytes, its row id in nine and its header's length in two.
const MOST_BEFORE: usize = 14;

/// A page, or what there is of it, and what is known of its places.
pub struct Page<'a> {
    pub bytes: &'a [u8],
    pub base: u64,
    /// Where its b-tree header stands.
    pub header: usize,
    /// The end of the freed block that holds a place, or 0.
    block_end: Vec<usize>,
    /// Whether a freed cell begins at a place: a block, or what is behind a row in one.
    begins: Vec<bool>,
    /// Whether a place is in a cell that has its bytes for itself.
    taken: Vec<bool>,
    /// Whether a row was kept whose values behind the key start at a place.
    pub seen: Vec<bool>,
}

impl<'a> Page<'a> {
    pub fn new(bytes: &'a [u8], base: u64, header: usize) -> Page<'a> {
        Page {
            bytes,
            base,
            header,
            block_end: vec![0; bytes.len()],
            begins: vec![false; bytes.len() + 1],
            taken: vec![false; bytes.len()],
            seen: vec![false; bytes.len() + 1],
        }
    }

    pub fn start_of(&self, record: &Record) -> usize {
        (record.row.offset - self.base) as usize
    }

    pub fn end_of(&self, record: &Record) -> usize {
        self.start_of(record) + record.row.consumed as usize
    }

    /// Two bytes, the high one first; what is past the page counts as 0.
    fn two_bytes(&self, place: usize) -> usize {
        match self.bytes.get(place..place + 2) {
            Some(bytes) => usize::from(bytes[0]) << 8 | usize::from(bytes[1]),
            None => 0,
        }
    }

    /// Where the gap between the cell pointers and the content starts and ends.
    pub fn gap(&self) -> Option<(usize, usize)> {
        let start = self.header + 8 + 2 * self.two_bytes(self.header + 3);
        let end = match self.two_bytes(self.header + 5) {
            0 => 65_536,
            content => content,
        };
        (start < end && end <= self.bytes.len()).then_some((start, end))
    }

    /// Notes the freed blocks.
    pub fn find_blocks(&mut self) {
        let mut noted = 0;
        let mut at = self.two_bytes(self.header + 1);
        while at != 0 && at + LINK <= self.bytes.len() {
            let end = at + self.two_bytes(at + 2);
            self.begins[at] = true;
            noted = noted.max(at);
            if end <= self.bytes.len() && noted < end {
                self.block_end[noted..end].fill(end);
                noted = end;
            }
            let next = self.two_bytes(at);
            if next <= at {
                return;
            }
            at = next;
        }
    }

    pub fn is_in_block(&self, record: &Record) -> bool {
        self.block_end[self.start_of(record)] != 0
    }

    /// Whether no other row has any of its bytes, or of the `head` ones before it.
    pub fn is_free(&self, record: &Record, head: usize) -> bool {
        !self.taken[self.start_of(record) - head..self.end_of(record)].contains(&true)
    }

    /// No other row may have its bytes and the `head` ones before it.
    pub fn take(&mut self, record: &Record, head: usize) {
        let (start, end) = (self.start_of(record), self.end_of(record));
        self.taken[start - head..end].fill(true);
    }

    /// A freed cell begins where the row ends.
    pub fn begin_behind(&mut self, record: &Record) {
        let end = self.end_of(record);
        self.begins[end] = true;
    }

    /// Where a freed block ends whose link stands at a place, or 0 where none can: the next block is behind it, or there is none.
    fn link_end(&self, at: usize) -> usize {
        let (next, size) = (self.two_bytes(at), self.two_bytes(at + 2));
        let end = at + size;
        let len = self.bytes.len();
        match size >= LINK && end <= len && (next == 0 || next >= end + LINK && next + LINK <= len)
        {
            true => end,
            false => 0,
        }
    }

    /// Whether a freed cell left its link at a place: what is left of it stands from `left` on and ends at `end`. The link has its size,
    /// or that of the block that it was joined with as well, whose own link has the same end. No younger link stands in it.
    fn was_freed(&self, at: usize, left: usize, end: usize) -> bool {
        let own = self.link_end(at);
        if own != end && (own < end || self.link_end(end) != own) {
            return false;
        }
        // The rest of its row id.
        if (at + LINK..left).any(|i| (self.bytes[i] < 0x80) != (i + 1 == left)) {
            return false;
        }
        let mut places = left..(end + 1).saturating_sub(LINK);
        !places.any(|i| [end, own].contains(&self.link_end(i)))
    }

    /// The bytes before a row where its length and row id stand there, and then puts the id into it; or the link of its freed cell; or
    /// 0.
    pub fn cell_head(&self, record: &mut Record) -> usize {
        let place = self.start_of(record);
        let before_it = &self.bytes[..place];
        for before in 2..=MOST_BEFORE.min(place) {
            let size = read_varint(before_it, place - before);
            let id = size.and_then(|size| read_varint(before_it, place - before + size.length));
            if let (Some(size), Some(id)) = (size, id) {
                if size.value == record.row.consumed && size.length + id.length == before {
                    record.row.id = Some(id.value as i64);
                    return before;
                }
            }
            if before >= LINK && self.was_freed(place - before, place, self.end_of(record)) {
                return before;
            }
        }
        0
    }

    /// Whether row ids of two bytes or more stand on the page; its last cell has the largest.
    fn has_long_ids(&self) -> bool {
        let cell = match self.two_bytes(self.header + 3) {
            0 => self.bytes.len(),
            cells => self.two_bytes(self.header + 8 + 2 * (cells - 1)),
        };
        let taken = read_varint(self.bytes, cell).map_or(0, |size| size.length);
        read_varint(self.bytes, cell + taken).is_none_or(|id| id.length > 1)
    }

    /// Whether the link took a type of a row as well: three bytes are before the types of a short row with a short id.
    fn lost_type(&self, record: &Record, skip: usize) -> bool {
        skip == 0 && record.row.consumed < 127 && !self.has_long_ids()
    }

    /// The bytes before a row of a freed block, found with the hints behind the first `skip` ones, where a cell can stand: they are what
    /// the link overwrote, and its header's length if that is left; behind it the block ends, or another cell has room. Or 0.
    pub fn freed_head(&self, record: &mut Record, skip: usize) -> usize {
        let (place, end) = (self.start_of(record), self.end_of(record));
        let rest = self.block_end[place].wrapping_sub(end);
        if (1..LINK).contains(&rest) {
            return 0;
        }
        // Its length may be larger than the row: then what reads as its id is none.
        if record.row.id.take().is_some() {
            return if skip == 0 { self.cell_head(record) } else { 0 };
        }
        if self.lost_type(record, skip) {
            return 0;
        }
        let types = record.entries[0].start as usize - place;
        // The last byte of the header's length.
        let length = (types + if types > 126 { 2 } else { 1 }) & 0x7f;
        let most = if skip > 0 { LINK } else { MOST_BEFORE };
        let stands = |before: &usize| {
            let (at, left) = (place - before, place - usize::from(*before > LINK));
            (self.begins[at] || self.was_freed(at, left, end))
                && (*before == LINK || usize::from(self.bytes[place - 1]) == length)
        };
        (LINK..=most.min(place)).find(stands).unwrap_or(0)
    }

    /// Whether a row of the gap stands behind a freed cell's link, and behind it another one or the gap's end. What has more of its cell
    /// than its types is left to the scan.
    pub fn is_freed_in_gap(&self, record: &Record, gap: (usize, usize), skip: usize) -> bool {
        let (place, behind) = (self.start_of(record), self.end_of(record));
        record.row.id.is_none()
            && place >= gap.0 + LINK
            && self.was_freed(place - LINK, place, behind)
            && (behind + LINK > gap.1 || self.link_end(behind) != 0)
            && !self.lost_type(record, skip)
    }

    /// The stretches of the gap that links say they are of.
    pub fn stretches(&self, gap: (usize, usize)) -> Vec<Range<usize>> {
        let (mut start, content) = gap;
        let mut found = Vec::new();
        while start < content {
            let (mut at, mut end) = (start, start + 1);
            while self.link_end(start) != 0 && at <= end && at < content {
                end = end.max(self.link_end(at));
                at += 1;
            }
            if self.link_end(start) != 0 {
                found.push(start..end.min(content));
            }
            start = end;
        }
        found
    }
}
