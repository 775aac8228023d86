//! Pages with freed blocks, and databases made by sqlite3.

use crate::inputs::{bytes, reading, Kind};
use std::path::Path;

const LEAF: u8 = 0x0D;
const HEADER: usize = 8;
const LINK: usize = 4;
/// The largest page, and where its one block starts: a block's size has two bytes.
pub const LARGEST: usize = 65_536;
const BLOCK: usize = 16;

/// The table's columns are a text, a real, an integer and a text; its root stands behind the schema.
pub const TABLE_HINTS: [u8; 4] = [2, 1, 0, 2];
pub const ROOT: u64 = 2;

fn put(page: &mut [u8], at: usize, number: usize) {
    page[at..at + 2].copy_from_slice(&(number as u16).to_be_bytes());
}

/// A leaf without cells.
fn leaf(size: usize, first_block: usize, content: usize) -> Vec<u8> {
    let mut page = vec![0; size];
    page[0] = LEAF;
    put(&mut page, 1, first_block);
    put(&mut page, 5, content);
    page
}

/// All of the page is one freed block.
pub fn one_block(kind: Kind) -> Vec<u8> {
    let mut page = leaf(LARGEST, BLOCK, BLOCK);
    put(&mut page, BLOCK + 2, LARGEST - BLOCK);
    page[BLOCK + LINK..].copy_from_slice(&payload(kind));
    page
}

/// What stands behind the link of that block.
pub fn payload(kind: Kind) -> Vec<u8> {
    bytes(kind, LARGEST - BLOCK - LINK)
}

/// All of the page is the gap before its content.
pub fn gap(kind: Kind) -> Vec<u8> {
    let mut page = leaf(LARGEST, 0, 0);
    page[HEADER..].copy_from_slice(&bytes(kind, LARGEST - HEADER));
    page
}

/// The same, with zeros in the first half, as where rows were put in from the page's end.
pub fn half_gap(kind: Kind) -> Vec<u8> {
    let mut page = gap(kind);
    page[HEADER..LARGEST / 2].fill(0);
    page
}

/// A leaf full of freed cells of one reading each. Of every second one the link has taken the length and the row id alone, of the
/// others the header's length and first type too.
pub fn small_blocks(size: usize) -> Vec<u8> {
    let record = reading();
    let cells = [record.clone(), record[2..].to_vec()];
    let mut page = leaf(size, BLOCK, BLOCK);
    let mut at = BLOCK;
    for cell in cells.iter().cycle() {
        let end = at + LINK + cell.len();
        let next = if end + LINK + record.len() > size { 0 } else { end };
        put(&mut page, at, next);
        put(&mut page, at + 2, LINK + cell.len());
        page[at + LINK..end].copy_from_slice(cell);
        if next == 0 {
            return page;
        }
        at = next;
    }
    page
}

/// Cells with readings, one behind the other, as where several that were neighbours are freed.
pub fn packed_cells() -> Vec<u8> {
    let record = reading();
    let cell = [&[record.len() as u8, 77][..], &record].concat();
    cell.iter().copied().cycle().take(LARGEST - BLOCK - LINK).collect()
}

/// The database of that page size, in the folder that BENCH_DATABASES names.
pub fn database(size: usize) -> Result<Vec<u8>, String> {
    let folder = std::env::var_os("BENCH_DATABASES").ok_or("BENCH_DATABASES names no folder")?;
    let path = Path::new(&folder).join(format!("{size}.db"));
    std::fs::read(&path).map_err(|e| format!("{}: {e}", path.display()))
}
