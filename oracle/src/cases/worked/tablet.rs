//! Databases that are made up. Where nothing is said a byte is 0; 10 fills blocks up, since no row has a column of the reserved type 10.

use super::making::{Lent, HIPIK};

pub const SIZE: u64 = 512;

/// Six pages of 512 bytes.
pub fn tablet() -> Vec<u8> {
    let mut db = Tablet(vec![0; 6 * SIZE as usize]);
    db.root();
    db.interior();
    db.leaf();
    db.leaf_with_a_block_in_its_header();
    db.leaf_with_a_loop();
    db.other_table();
    db.0
}

struct Tablet(Vec<u8>);

impl Tablet {
    fn put(&mut self, at: usize, bytes: &str) {
        let bytes = bytes.lent();
        self.0[at..at + bytes.len()].copy_from_slice(&bytes);
    }

    fn fill(&mut self, at: usize, count: usize) {
        self.0[at..at + count].fill(10);
    }

    /// Page 1, a root: pages 3, 1, which is itself, 0, 99, which is not there, and 3 again by its cells, and 2 on its right.
    fn root(&mut self) {
        self.put(100, "05 0000 0005 0000 00 00000002");
        self.put(112, "0100 0104 0108 010c 0100");
        self.put(256, "00000003 00000001 00000000 00000063");
    }

    /// Page 2, an interior page: a cell past the page, page 4, five times page 0, and 5 on its right.
    fn interior(&mut self) {
        self.put(512, "05 0000 0007 0000 00 00000005");
        self.put(524, "01fe 0064 0068 0068 0068 0068 0068");
        self.put(612, "00000004");
    }

    /// Page 3, a leaf: a gap from 8 to 256 with a row at 12 and one of three bytes at its end; a block at 300 with a row two bytes in,
    /// before which the filling reads as a length of 10 and a row id; and one at 340 with a cell whose row id is 7. The chain goes on
    /// to 6, and the gap begins so that a block of 24 bytes would stand there.
    fn leaf(&mut self) {
        self.put(1024, "0d 012c 0000 0100 00 0018 0a0a");
        self.put(1036, HIPIK);
        self.put(1277, "03 08 00");
        self.put(1324, "0154 0014 0a0a");
        self.put(1330, HIPIK);
        self.fill(1339, 5);
        self.put(1364, "0006 0018 0a0a0a 09 07");
        self.put(1373, HIPIK);
        self.fill(1382, 6);
    }

    /// Page 4, a leaf: its chain begins at 7, in the header, with a block of 30 bytes that has a cell with the row id 8; a content start
    /// of 0 is past the page, so that there is no gap.
    fn leaf_with_a_block_in_its_header(&mut self) {
        self.put(1536, "0d 0007 0000 0000 00 00 001e 0a0a 09 08");
        self.put(1551, HIPIK);
        self.fill(1560, 13);
    }

    /// Page 5, a leaf: two cells, whose pointers end where the content starts, and a block at 200 that names itself as the next; it has
    /// a cell with the row id 5, in whose text there is a cell with the row id 7.
    fn leaf_with_a_loop(&mut self) {
        self.put(2048, "0d 00c8 0002 000c 00");
        self.put(2248, "00c8 0028 0f 05 03 01 23 2a 09 07");
        self.put(2260, HIPIK);
        self.fill(2269, 19);
    }

    /// Page 6, a leaf and the root of a table by itself: a block at 100 with a row of three columns, and one at 140 with none.
    fn other_table(&mut self) {
        self.put(2560, "0d 0064 0000 0008 00");
        self.put(2660, "008c 0016 0a0a 04 01 17 08 2a 68 69 70 69 6b");
        self.fill(2676, 6);
        self.put(2700, "0000 000a 0a0a0a0a0a0a");
    }
}

/// A page of 512 bytes, the first of its database: a leaf with one freed block at 120, which has this payload. The content starts
/// behind the page, so that there is no gap.
pub fn one_leaf(payload: &str) -> Vec<u8> {
    let payload = payload.lent();
    let mut db = vec![0; SIZE as usize];
    db[100..103].copy_from_slice(&[13, 0, 120]);
    db[123] = 4 + payload.len() as u8;
    db[124..124 + payload.len()].copy_from_slice(&payload);
    db
}
