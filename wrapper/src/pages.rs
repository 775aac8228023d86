//! Pages of a database.

use crate::door;
use crate::lists::zeros;
use crate::Refusal;

/// A page of a database.
#[derive(Clone, Copy, Debug, PartialEq, Eq)]
#[non_exhaustive]
pub struct Page<'a> {
    /// Where it starts in the database.
    pub start: usize,
    /// Where its b-tree header stands in it: 100 on page 1, else 0.
    pub header: usize,
    /// Its bytes.
    pub bytes: &'a [u8],
}

/// The page `number` of a database; pages count from 1.
///
/// # Errors
///
/// [`Refusal::TooLarge`], [`Refusal::PageSize`] and [`Refusal::NoSuchPage`].
pub fn page(db: &[u8], page_size: usize, number: u64) -> Result<Page<'_>, Refusal> {
    let (refusal, [start, len, header]) = door::get_page_data(db, page_size as u64, number);
    Refusal::check(refusal)?;
    Ok(Page {
        start: start as usize,
        header: header as usize,
        bytes: &db[start as usize..][..len as usize],
    })
}

/// The numbers of the leaf pages of the table whose root is the page `root`, in the order of the walk: of a page the
/// children of its cells from the last to the first, and then its right child, each with all that is below it. A root that
/// is not there, or no page of a table, has none.
///
/// The walk's stack grows as it has to, up to four times the database's size: so much takes one that is made to do so.
///
/// # Errors
///
/// [`Refusal::TooLarge`], [`Refusal::PageSize`], and [`Refusal::NoRoom`] where the machine has no memory for the stack.
pub fn leaf_pages(db: &[u8], page_size: usize, root: u64) -> Result<Vec<u64>, Refusal> {
    let pages = db.len().checked_div(page_size).unwrap_or(0);
    // No page size of the file format is smaller, and any other is refused.
    let pages = pages.min(db.len() / 512);
    let mut flags = vec![0; pages];
    let mut leaves = vec![0; pages];
    let mut stack = vec![0; 64];
    loop {
        let (number, [written]) = door::collect_leaf_pages(
            db,
            page_size as u64,
            root,
            &mut flags,
            &mut stack,
            &mut leaves,
        );
        match Refusal::of(number) {
            // A page is looked at once, and a pointer to a child takes two bytes of it.
            Some(Refusal::WalkSpace) if stack.len() < db.len() / 2 => {
                stack = zeros((stack.len() * 8).min(db.len() / 2))?;
            }
            Some(refusal) => return Err(refusal),
            None => {
                leaves.truncate(written as usize);
                return Ok(leaves);
            }
        }
    }
}

#[cfg(test)]
mod tests {
    use super::*;

    /// A root with the pages 3, 2 and 9, which is not there, below it, and two leaves.
    fn tree() -> Vec<u8> {
        let mut db = vec![0; 3 * 512];
        db[100] = 5;
        db[103..105].copy_from_slice(&[0, 2]);
        db[108..112].copy_from_slice(&[0, 0, 0, 3]);
        db[112..116].copy_from_slice(&[1, 0, 1, 4]);
        db[256..264].copy_from_slice(&[0, 0, 0, 2, 0, 0, 0, 9]);
        db[260..264].copy_from_slice(&[0, 0, 0, 9]);
        db[512] = 13;
        db[1024] = 13;
        db
    }

    #[test]
    fn a_page_is_a_part_of_its_database() {
        let db = tree();
        let first = page(&db, 512, 1).unwrap();
        assert_eq!((first.start, first.header), (0, 100));
        let second = page(&db, 512, 2).unwrap();
        assert_eq!((second.start, second.header), (512, 0));
        assert_eq!(second.bytes, &db[512..1024]);
        assert_eq!(page(&db, 512, 4), Err(Refusal::NoSuchPage));
        assert_eq!(page(&db, 500, 1), Err(Refusal::PageSize));
    }

    #[test]
    fn leaves_come_in_the_order_of_the_walk() {
        let db = tree();
        assert_eq!(leaf_pages(&db, 512, 1), Ok(vec![2, 3]));
        assert_eq!(leaf_pages(&db, 512, 3), Ok(vec![3]));
        assert_eq!(leaf_pages(&db, 512, 0), Ok(vec![]));
        assert_eq!(leaf_pages(&db, 0, 1), Err(Refusal::PageSize));
    }

    #[test]
    fn a_wide_page_has_its_stack_grown() {
        let mut db = vec![0; 2 * 4096];
        db[100] = 5;
        db[103..105].copy_from_slice(&1000u16.to_be_bytes());
        for cell in 0..1000 {
            db[112 + 2 * cell..][..2].copy_from_slice(&3000u16.to_be_bytes());
        }
        db[3000..3004].copy_from_slice(&[0, 0, 0, 2]);
        db[4096] = 13;
        assert_eq!(leaf_pages(&db, 4096, 1), Ok(vec![2]));
    }
}
