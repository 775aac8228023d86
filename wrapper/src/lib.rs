//! Safe calls into Phsarodil, which carves rows out of what is left in SQLite pages.
//!
//! The work is done by the proved library behind `include/phsarodil.h`; this crate lends it memory and gives its words
//! names and types. Values borrow from the bytes that they were found in. Rows come by iterators that hold a batch of them, or
//! those of one page, and no call asks for more memory than it says ([`DEFAULT_MEMORY`]). The first call panics where the archive
//! speaks other words than this crate knows (`phs_version`).
//!
//! Which call for which loss: rows deleted here and there lie in the free space of pages that are still in use, and
//! [`scan_page_gaps`] with [`Rebuilding::Exact`] finds them; of a layer that was cleared the pages are whole, and [`scan`] of each
//! page does. Both list rows that are none. The example `carve` keeps those with a confidence of at least 0.85 that are not all NULL
//! and stand where a cell can.
//!
//! The calls on free space find whole cells in freed blocks, and all else there as guesses, rows whose header length is made up
//! ([`Rebuilding`]). Those on one page, such as [`scan_page_gap`], leave guesses out unless [`PageGap::rebuilding`] asks for them; walks,
//! such as [`scan_page_gaps`], make them.
//!
//! ```
//! use phsarodil::{scan, Hint, Value};
//!
//! let region = [0x03, 0x01, 0x17, 0x2a, 0x68, 0x69, 0x70, 0x69, 0x6b];
//! for record in scan(&region, &[Hint::Integer, Hint::Text], 0)? {
//!     assert_eq!(record.row.offset, 0);
//!     assert_eq!(record.values()?, [Value::Integer(42), Value::Text("hipik")]);
//! }
//! # Ok::<(), phsarodil::Refusal>(())
//! ```

#![deny(missing_docs, unsafe_code)]
#![warn(clippy::missing_errors_doc)]

mod batches;
// The two calls over tables are made by a test alone: page by page the same rows come in bounded memory.
#[allow(unsafe_code)]
#[cfg_attr(not(test), allow(dead_code))]
mod door;
mod free_space;
mod freeblocks;
mod gaps;
mod hint;
mod learned;
mod limits;
mod lists;
mod modes;
mod pages;
mod refusal;
mod rows;
mod search;
mod shown;
mod tables;
mod values;

pub use batches::Carved;
pub use free_space::{Found, FreeSpace, PageError};
pub use freeblocks::{
    recover_every_page_freeblocks, recover_freeblocks, recover_page_freeblocks,
    recover_slice_freeblocks,
};
pub use gaps::{
    parse_cells_from_freeblock, scan_every_page_gap, scan_page_gap, scan_page_gaps,
    scan_single_page_gap, GapWalk, PageGap, Rebuilding,
};
pub use hint::{Hint, UnknownHint};
pub use learned::{carve_unallocated, learn_signatures};
pub use limits::{
    DEFAULT_MEMORY, LARGEST_BASE, LARGEST_REGION, LARGEST_STATEMENT, MOST_COLUMNS, MOST_LEARNED,
    MOST_ONE_BYTE_COLUMNS,
};
pub use lists::Records;
pub use modes::carve_freeblock;
pub use pages::{leaf_pages, page, Page};
pub use refusal::Refusal;
pub use rows::{scan, try_parse_record, Mode, Record, Row, Rows, Scan, Source};
pub use search::{search, Places};
pub use tables::Table;
pub use values::{body_length, decode_serial_type, read_varint, Entry, State, Value, Varint};

/// Its example is run.
#[cfg(doctest)]
#[doc = include_str!("../README.md")]
struct Readme;
