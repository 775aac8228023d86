//! Section 11, 11.1 to 11.5: the gap of a page, and cells in its freed blocks.

use super::making::*;
use super::Worked;

pub fn all() -> Vec<Worked> {
    [gaps(), rows(), chains(), ends_of_chains(), cells(), places()].into_iter().flatten().collect()
}

fn of_a_page(name: &str, page: impl Lent) -> Worked {
    gap_slice(name, ONE_BYTE, page, [0, 0], "00", 3)
}

/// The content starts at 65,536, written as 0, and pointers to 32,700 cells leave 128 bytes before it: a row of three bytes at their end.
fn large_page() -> Vec<u8> {
    joined(&[&"0d 0000 7fbc 0000 00", &times(0, 65_525), &"03 08 00"])
}

fn gaps() -> Vec<Worked> {
    vec![
        heading("11.1 The gap of a page"),
        of_a_page("from 8 to 12", "0d 0000 0000 000c 00 0208 0000"),
        of_a_page("with a pointer to a cell: from 10", "0d 0000 0001 000d 00 0208 020800"),
        of_a_page("two pointers to its end: none", "0d 0000 0002 000c 00 0208 0000"),
        of_a_page("to a byte behind the page: none", "0d 0000 0000 000c 00 0208 00"),
        of_a_page("a content start of 0: past this page", "0d 0000 0000 0000 00 0208 00"),
        of_a_page("no byte: none", "0d 0000 0000 0008 00 0208 00"),
        of_a_page("of zeros: no row", "0d 0000 0000 000e 00 0000 0000 0000 0208 00"),
        of_a_page("of zeros but for one byte: a row whose type is 0", "0d 0000 0000 000e 00 0000 0200 0000 0208 00"),
        gap_slice("a content start of 0 in a page of 65536 bytes", ONE_BYTE, large_page(), [0, 0], "0002", 2),
    ]
}

fn rows() -> Vec<Worked> {
    vec![
        heading("11.2 The rows of a gap"),
        gap_slice(
            "base 1000: the offset has it, the entries have not",
            ONE_BYTE,
            "0d 0000 0000 000c 00 00 0201 2a",
            [0, 1000],
            "00",
            1,
        ),
        of_a_page("the last two bytes are left out", "0d 0000 0000 000b 00 00 0208"),
        of_a_page("what looks like a block is none", "0d 0000 0000 000e 00 0000 0006 0107"),
    ]
}

fn chains() -> Vec<Worked> {
    vec![
        heading("11.3 The chain of freed blocks here; of a payload 02 08 the second byte is a row, its header rebuilt"),
        of_a_page("back to a lower place: ends", "0d 000e 0000 0000 00 0000 0006 0208 0008 0006 0209"),
        of_a_page("a size of 3 is left out, and the chain goes on", "0d 0008 0000 0000 00 000c 0003 0000 0006 0208"),
        of_a_page("so is a size past the page", "0d 0008 0000 0000 00 000e 0011 0208 0000 0006 0209"),
        of_a_page("a block in the header, at 1", "0d 0001 0006 0208 00"),
    ]
}

/// A page with so many blocks without a payload, and behind them in their chain one with a row.
fn behind_blocks(count: u16) -> Vec<u8> {
    let mut page = "0d 0008 0000 0000 00".lent();
    for i in 0..count {
        page.extend((12 + 4 * i).to_be_bytes());
        page.extend([0, 4]);
    }
    joined(&[&page, &"0000 0006 0208"])
}

fn ends_of_chains() -> Vec<Worked> {
    vec![
        heading("11.3 Where the chain ends here"),
        of_a_page("where four bytes pass the page", "0d 0008 0000 0000 00 000e 0006 0208 0000 00"),
        of_a_page("a row behind 1023 blocks without a payload: step 1024", behind_blocks(1023)),
        of_a_page("a row behind 1024 blocks without a payload: step 1025", behind_blocks(1024)),
    ]
}

fn cells() -> Vec<Worked> {
    let lent = |name: &str, payload: &str| block(name, ONE_BYTE, payload, 0, "02", 3);
    vec![
        heading("11.4 Cells in a payload; what has no row id has its header rebuilt"),
        lent("a cell: length 3, row id 7", "03 07 020f61"),
        lent("length 0: none", "00 07 020f61"),
        lent("a length a byte past the payload: none", "04 07 020f61"),
        lent("a length a byte short of the body: none", "02 07 020f61"),
        lent("a length longer than the row", "04 07 020f61 0a"),
        lent("a row id of nine bytes, all bits", "03 ffffffffffffffffff 020f61"),
        lent("a length of 2^64 - 1", "ffffffffffffffffff 07 020f61"),
    ]
}

fn places() -> Vec<Worked> {
    let lent = |name: &str, payload: &str| block(name, ONE_BYTE, payload, 0, "02", 4);
    vec![
        heading("11.5 Where cells are looked for"),
        lent("two cells, one behind the other", "03 07 020f61 03 09 020f62"),
        lent("a cell in another's text is none", "07 05 02 17 03 07 020f61"),
        lent("it is one where the other is a byte short", "08 05 02 17 03 07 020f61"),
    ]
}
