//! The limits that a caller may need.

/// The most columns that a table may have; more, or none, is [`Refusal::ColumnCount`](crate::Refusal::ColumnCount).
pub const MOST_COLUMNS: usize = 510;

/// The same with [`Rebuilding::OneByte`](crate::Rebuilding::OneByte).
pub const MOST_ONE_BYTE_COLUMNS: usize = 126;

/// The most bytes of a region or a haystack; more is [`Refusal::TooLarge`](crate::Refusal::TooLarge).
pub const LARGEST_REGION: usize = 16_777_216;

/// The most bytes of a statement; more is [`Refusal::TooLarge`](crate::Refusal::TooLarge).
pub const LARGEST_STATEMENT: usize = 65_536;

/// The largest base; a larger one is [`Refusal::BaseTooFar`](crate::Refusal::BaseTooFar).
pub const LARGEST_BASE: u64 = 1 << 48;

/// The most rows to learn from; more is [`Refusal::TooLarge`](crate::Refusal::TooLarge).
pub const MOST_LEARNED: usize = 1_024;

/// The bytes that the lists of one page's rows may take where no other limit is set: 64 MiB. That is room for a row of 25
/// columns at every byte of a page of 65,536 bytes.
///
/// How many rows a page has does not follow from its size alone: in the free space nearly every byte may begin one, blocks
/// may lie over each other, and a row takes 32 bytes for each column. Where the lists would pass the limit, the call is
/// refused ([`Refusal::NoRoom`](crate::Refusal::NoRoom)), and an iterator over pages names the page
/// ([`PageError`](crate::PageError)) and goes on.
pub const DEFAULT_MEMORY: usize = 64 << 20;
