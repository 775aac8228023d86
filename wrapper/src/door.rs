//! The calls of `include/phsarodil.h` over slices: each answers the refusal number and the words. All that is unsafe
//! stands here. A call is sound for any slices: the library keeps to their lengths, a slice's pointer is never null,
//! and the borrow checker sees to it that what is written overlaps nothing. The first call sees to it that the archive
//! speaks the words that this crate knows.

use std::sync::Once;

/// The words that this crate knows: `PHS_VERSION` of the header. It moves with the three numbers below, and with what a call takes.
const VERSION: u64 = 4;

/// The words of a row, `PHS_WORDS_PER_ROW`.
pub const ROW_WORDS: usize = 9;

/// The words of a column entry, `PHS_WORDS_PER_ENTRY`.
pub const ENTRY_WORDS: usize = 4;

/// How many modes the word of a row tells apart that holds the mode, plus so many times the table's index.
pub const MODES: u64 = 4;

/// A refusal number, 0 for none, with the words of `out`.
pub type Answer<const N: usize> = (u64, [u64; N]);

/// Page flags and page stack, side by side.
pub type Walk<'a> = (&'a mut [u8], &'a mut [u64]);

/// Declared as in the header.
mod c {
    extern "C" {
        pub fn phs_version() -> u64;

        pub fn phs_read_varint(
            bytes: *const u8,
            len: usize,
            offset: usize,
            out: *mut [u64; 4],
        ) -> u64;

        pub fn phs_body_length(kind: u64, out: *mut [u64; 2]) -> u64;

        pub fn phs_decode_serial_type(
            kind: u64,
            bytes: *const u8,
            len: usize,
            offset: usize,
            out: *mut [u64; 4],
        ) -> u64;

        pub fn phs_read_entry(
            state: u64,
            kind: u64,
            start: u64,
            length: u64,
            bytes: *const u8,
            len: usize,
            out: *mut [u64; 4],
        ) -> u64;

        pub fn phs_view_entry(
            state: u64,
            kind: u64,
            start: u64,
            length: u64,
            bytes: *const u8,
            len: usize,
            out: *mut [u64; 2],
        ) -> u64;

        pub fn phs_is_compatible(hint: u8, kind: u64, out: *mut [u64; 1]) -> u64;

        pub fn phs_try_parse_record(
            region: *const u8,
            len: usize,
            hints: *const u8,
            hints_len: usize,
            base: u64,
            offset: usize,
            rows: *mut u64,
            rows_len: usize,
            cols: *mut u64,
            cols_len: usize,
            out: *mut [u64; 3],
        ) -> u64;

        pub fn phs_scan_region(
            region: *const u8,
            len: usize,
            hints: *const u8,
            hints_len: usize,
            base: u64,
            start: usize,
            rows: *mut u64,
            rows_len: usize,
            cols: *mut u64,
            cols_len: usize,
            out: *mut [u64; 3],
        ) -> u64;

        pub fn phs_column_hints(
            statement: *const u8,
            len: usize,
            hints: *mut u8,
            hints_len: usize,
            out: *mut [u64; 1],
        ) -> u64;

        pub fn phs_from_create_sql(
            statement: *const u8,
            len: usize,
            hints: *mut u8,
            hints_len: usize,
            out: *mut [u64; 1],
        ) -> u64;

        pub fn phs_boyer_moore_search(
            haystack: *const u8,
            len: usize,
            pattern: *const u8,
            pattern_len: usize,
            places: *mut u64,
            places_len: usize,
            out: *mut [u64; 1],
        ) -> u64;

        pub fn phs_recover_freeblocks(
            db: *const u8,
            len: usize,
            page_size: u64,
            roots: *const u64,
            roots_len: usize,
            counts: *const u64,
            counts_len: usize,
            hints: *const u8,
            hints_len: usize,
            flags: *mut u8,
            flags_len: usize,
            stack: *mut u64,
            stack_len: usize,
            rows: *mut u64,
            rows_len: usize,
            cols: *mut u64,
            cols_len: usize,
            out: *mut [u64; 1],
        ) -> u64;

        pub fn phs_recover_page_freeblocks(
            db: *const u8,
            len: usize,
            page_size: u64,
            page: u64,
            hints: *const u8,
            hints_len: usize,
            rows: *mut u64,
            rows_len: usize,
            cols: *mut u64,
            cols_len: usize,
            out: *mut [u64; 1],
        ) -> u64;

        pub fn phs_recover_slice_freeblocks(
            page: *const u8,
            len: usize,
            header: usize,
            base: u64,
            hints: *const u8,
            hints_len: usize,
            rows: *mut u64,
            rows_len: usize,
            cols: *mut u64,
            cols_len: usize,
            out: *mut [u64; 1],
        ) -> u64;

        pub fn phs_scan_page_gaps(
            rebuilding: u64,
            db: *const u8,
            len: usize,
            page_size: u64,
            roots: *const u64,
            roots_len: usize,
            counts: *const u64,
            counts_len: usize,
            hints: *const u8,
            hints_len: usize,
            flags: *mut u8,
            flags_len: usize,
            stack: *mut u64,
            stack_len: usize,
            rows: *mut u64,
            rows_len: usize,
            cols: *mut u64,
            cols_len: usize,
            out: *mut [u64; 1],
        ) -> u64;

        pub fn phs_scan_page_gap(
            rebuilding: u64,
            db: *const u8,
            len: usize,
            page_size: u64,
            page: u64,
            hints: *const u8,
            hints_len: usize,
            rows: *mut u64,
            rows_len: usize,
            cols: *mut u64,
            cols_len: usize,
            out: *mut [u64; 1],
        ) -> u64;

        pub fn phs_scan_single_page_gap(
            rebuilding: u64,
            page: *const u8,
            len: usize,
            header: usize,
            base: u64,
            hints: *const u8,
            hints_len: usize,
            rows: *mut u64,
            rows_len: usize,
            cols: *mut u64,
            cols_len: usize,
            out: *mut [u64; 1],
        ) -> u64;

        pub fn phs_parse_cells_from_freeblock(
            rebuilding: u64,
            payload: *const u8,
            len: usize,
            base: u64,
            hints: *const u8,
            hints_len: usize,
            rows: *mut u64,
            rows_len: usize,
            cols: *mut u64,
            cols_len: usize,
            out: *mut [u64; 1],
        ) -> u64;

        pub fn phs_carve_unallocated(
            region: *const u8,
            len: usize,
            types: *const u64,
            types_len: usize,
            base: u64,
            rows: *mut u64,
            rows_len: usize,
            cols: *mut u64,
            cols_len: usize,
            out: *mut [u64; 1],
        ) -> u64;

        pub fn phs_get_page_data(
            db: *const u8,
            len: usize,
            page_size: u64,
            page: u64,
            out: *mut [u64; 3],
        ) -> u64;

        pub fn phs_collect_leaf_pages(
            db: *const u8,
            len: usize,
            page_size: u64,
            root: u64,
            flags: *mut u8,
            flags_len: usize,
            stack: *mut u64,
            stack_len: usize,
            leaves: *mut u64,
            leaves_len: usize,
            out: *mut [u64; 1],
        ) -> u64;

        pub fn phs_carve_freeblock(
            bytes: *const u8,
            len: usize,
            base: u64,
            columns: usize,
            rows: *mut u64,
            rows_len: usize,
            cols: *mut u64,
            cols_len: usize,
            out: *mut [u64; 1],
        ) -> u64;

        pub fn phs_learn_signatures(
            bytes: *const u8,
            len: usize,
            width: usize,
            entries: *const u64,
            entries_len: usize,
            types: *mut u64,
            types_len: usize,
            out: *mut [u64; 1],
        ) -> u64;
    }
}

fn check_version() {
    static CHECKED: Once = Once::new();
    CHECKED.call_once(|| {
        let version = unsafe { c::phs_version() };
        assert_eq!(
            version, VERSION,
            "libphsarodil.a is of another version than this crate"
        );
    });
}

fn answer<const N: usize>(call: impl FnOnce(*mut [u64; N]) -> u64) -> Answer<N> {
    check_version();
    let mut out = [0; N];
    let number = call(&mut out);
    (number, out)
}

pub fn read_varint(bytes: &[u8], offset: usize) -> Answer<4> {
    answer(|out| unsafe { c::phs_read_varint(bytes.as_ptr(), bytes.len(), offset, out) })
}

pub fn body_length(kind: u64) -> Answer<2> {
    answer(|out| unsafe { c::phs_body_length(kind, out) })
}

pub fn decode_serial_type(kind: u64, bytes: &[u8], offset: usize) -> Answer<4> {
    answer(|out| unsafe {
        c::phs_decode_serial_type(kind, bytes.as_ptr(), bytes.len(), offset, out)
    })
}

/// Of an entry's four words.
pub fn read_entry([state, kind, start, length]: [u64; 4], bytes: &[u8]) -> Answer<4> {
    answer(|out| unsafe {
        c::phs_read_entry(state, kind, start, length, bytes.as_ptr(), bytes.len(), out)
    })
}

/// Of an entry's four words.
pub fn view_entry([state, kind, start, length]: [u64; 4], bytes: &[u8]) -> Answer<2> {
    answer(|out| unsafe {
        c::phs_view_entry(state, kind, start, length, bytes.as_ptr(), bytes.len(), out)
    })
}

pub fn is_compatible(hint: u8, kind: u64) -> Answer<1> {
    answer(|out| unsafe { c::phs_is_compatible(hint, kind, out) })
}

pub fn try_parse_record(
    region: &[u8],
    hints: &[u8],
    base: u64,
    offset: usize,
    rows: &mut [u64],
    cols: &mut [u64],
) -> Answer<3> {
    answer(|out| unsafe {
        c::phs_try_parse_record(
            region.as_ptr(),
            region.len(),
            hints.as_ptr(),
            hints.len(),
            base,
            offset,
            rows.as_mut_ptr(),
            rows.len(),
            cols.as_mut_ptr(),
            cols.len(),
            out,
        )
    })
}

pub fn scan_region(
    region: &[u8],
    hints: &[u8],
    base: u64,
    start: usize,
    rows: &mut [u64],
    cols: &mut [u64],
) -> Answer<3> {
    answer(|out| unsafe {
        c::phs_scan_region(
            region.as_ptr(),
            region.len(),
            hints.as_ptr(),
            hints.len(),
            base,
            start,
            rows.as_mut_ptr(),
            rows.len(),
            cols.as_mut_ptr(),
            cols.len(),
            out,
        )
    })
}

/// The calls on a statement, a reading each; both take the same.
type Reading = unsafe extern "C" fn(*const u8, usize, *mut u8, usize, *mut [u64; 1]) -> u64;

fn read_statement(reading: Reading, statement: &[u8], hints: &mut [u8]) -> Answer<1> {
    answer(|out| unsafe {
        reading(
            statement.as_ptr(),
            statement.len(),
            hints.as_mut_ptr(),
            hints.len(),
            out,
        )
    })
}

pub fn column_hints(statement: &[u8], hints: &mut [u8]) -> Answer<1> {
    read_statement(c::phs_column_hints, statement, hints)
}

pub fn from_create_sql(statement: &[u8], hints: &mut [u8]) -> Answer<1> {
    read_statement(c::phs_from_create_sql, statement, hints)
}

pub fn boyer_moore_search(haystack: &[u8], pattern: &[u8], places: &mut [u64]) -> Answer<1> {
    answer(|out| unsafe {
        c::phs_boyer_moore_search(
            haystack.as_ptr(),
            haystack.len(),
            pattern.as_ptr(),
            pattern.len(),
            places.as_mut_ptr(),
            places.len(),
            out,
        )
    })
}

pub fn get_page_data(db: &[u8], page_size: u64, page: u64) -> Answer<3> {
    answer(|out| unsafe { c::phs_get_page_data(db.as_ptr(), db.len(), page_size, page, out) })
}

pub fn collect_leaf_pages(
    db: &[u8],
    page_size: u64,
    root: u64,
    flags: &mut [u8],
    stack: &mut [u64],
    leaves: &mut [u64],
) -> Answer<1> {
    answer(|out| unsafe {
        c::phs_collect_leaf_pages(
            db.as_ptr(),
            db.len(),
            page_size,
            root,
            flags.as_mut_ptr(),
            flags.len(),
            stack.as_mut_ptr(),
            stack.len(),
            leaves.as_mut_ptr(),
            leaves.len(),
            out,
        )
    })
}

/// Of tables lent as their roots and counts of columns, and all hints; rows and columns stand side by side, too.
pub fn recover_freeblocks(
    db: &[u8],
    page_size: u64,
    [roots, counts]: [&[u64]; 2],
    hints: &[u8],
    (flags, stack): Walk,
    [rows, cols]: [&mut [u64]; 2],
) -> Answer<1> {
    answer(|out| unsafe {
        c::phs_recover_freeblocks(
            db.as_ptr(),
            db.len(),
            page_size,
            roots.as_ptr(),
            roots.len(),
            counts.as_ptr(),
            counts.len(),
            hints.as_ptr(),
            hints.len(),
            flags.as_mut_ptr(),
            flags.len(),
            stack.as_mut_ptr(),
            stack.len(),
            rows.as_mut_ptr(),
            rows.len(),
            cols.as_mut_ptr(),
            cols.len(),
            out,
        )
    })
}

pub fn recover_page_freeblocks(
    db: &[u8],
    page_size: u64,
    page: u64,
    hints: &[u8],
    rows: &mut [u64],
    cols: &mut [u64],
) -> Answer<1> {
    answer(|out| unsafe {
        c::phs_recover_page_freeblocks(
            db.as_ptr(),
            db.len(),
            page_size,
            page,
            hints.as_ptr(),
            hints.len(),
            rows.as_mut_ptr(),
            rows.len(),
            cols.as_mut_ptr(),
            cols.len(),
            out,
        )
    })
}

pub fn recover_slice_freeblocks(
    page: &[u8],
    header: usize,
    base: u64,
    hints: &[u8],
    rows: &mut [u64],
    cols: &mut [u64],
) -> Answer<1> {
    answer(|out| unsafe {
        c::phs_recover_slice_freeblocks(
            page.as_ptr(),
            page.len(),
            header,
            base,
            hints.as_ptr(),
            hints.len(),
            rows.as_mut_ptr(),
            rows.len(),
            cols.as_mut_ptr(),
            cols.len(),
            out,
        )
    })
}

pub fn scan_page_gaps(
    rebuilding: u64,
    db: &[u8],
    page_size: u64,
    [roots, counts]: [&[u64]; 2],
    hints: &[u8],
    (flags, stack): Walk,
    [rows, cols]: [&mut [u64]; 2],
) -> Answer<1> {
    answer(|out| unsafe {
        c::phs_scan_page_gaps(
            rebuilding,
            db.as_ptr(),
            db.len(),
            page_size,
            roots.as_ptr(),
            roots.len(),
            counts.as_ptr(),
            counts.len(),
            hints.as_ptr(),
            hints.len(),
            flags.as_mut_ptr(),
            flags.len(),
            stack.as_mut_ptr(),
            stack.len(),
            rows.as_mut_ptr(),
            rows.len(),
            cols.as_mut_ptr(),
            cols.len(),
            out,
        )
    })
}

pub fn scan_page_gap(
    rebuilding: u64,
    db: &[u8],
    page_size: u64,
    page: u64,
    hints: &[u8],
    rows: &mut [u64],
    cols: &mut [u64],
) -> Answer<1> {
    answer(|out| unsafe {
        c::phs_scan_page_gap(
            rebuilding,
            db.as_ptr(),
            db.len(),
            page_size,
            page,
            hints.as_ptr(),
            hints.len(),
            rows.as_mut_ptr(),
            rows.len(),
            cols.as_mut_ptr(),
            cols.len(),
            out,
        )
    })
}

pub fn scan_single_page_gap(
    rebuilding: u64,
    page: &[u8],
    header: usize,
    base: u64,
    hints: &[u8],
    rows: &mut [u64],
    cols: &mut [u64],
) -> Answer<1> {
    answer(|out| unsafe {
        c::phs_scan_single_page_gap(
            rebuilding,
            page.as_ptr(),
            page.len(),
            header,
            base,
            hints.as_ptr(),
            hints.len(),
            rows.as_mut_ptr(),
            rows.len(),
            cols.as_mut_ptr(),
            cols.len(),
            out,
        )
    })
}

pub fn parse_cells_from_freeblock(
    rebuilding: u64,
    payload: &[u8],
    base: u64,
    hints: &[u8],
    rows: &mut [u64],
    cols: &mut [u64],
) -> Answer<1> {
    answer(|out| unsafe {
        c::phs_parse_cells_from_freeblock(
            rebuilding,
            payload.as_ptr(),
            payload.len(),
            base,
            hints.as_ptr(),
            hints.len(),
            rows.as_mut_ptr(),
            rows.len(),
            cols.as_mut_ptr(),
            cols.len(),
            out,
        )
    })
}

pub fn carve_unallocated(
    region: &[u8],
    types: &[u64],
    base: u64,
    rows: &mut [u64],
    cols: &mut [u64],
) -> Answer<1> {
    answer(|out| unsafe {
        c::phs_carve_unallocated(
            region.as_ptr(),
            region.len(),
            types.as_ptr(),
            types.len(),
            base,
            rows.as_mut_ptr(),
            rows.len(),
            cols.as_mut_ptr(),
            cols.len(),
            out,
        )
    })
}

pub fn carve_freeblock(
    bytes: &[u8],
    base: u64,
    columns: usize,
    rows: &mut [u64],
    cols: &mut [u64],
) -> Answer<1> {
    answer(|out| unsafe {
        c::phs_carve_freeblock(
            bytes.as_ptr(),
            bytes.len(),
            base,
            columns,
            rows.as_mut_ptr(),
            rows.len(),
            cols.as_mut_ptr(),
            cols.len(),
            out,
        )
    })
}

pub fn learn_signatures(
    bytes: &[u8],
    width: usize,
    entries: &[u64],
    types: &mut [u64],
) -> Answer<1> {
    answer(|out| unsafe {
        c::phs_learn_signatures(
            bytes.as_ptr(),
            bytes.len(),
            width,
            entries.as_ptr(),
            entries.len(),
            types.as_mut_ptr(),
            types.len(),
            out,
        )
    })
}
