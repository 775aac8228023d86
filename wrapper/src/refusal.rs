//! Why a call is refused.

use std::error::Error;
use std::fmt;

/// A refusal; its number is that of the header.
#[derive(Clone, Copy, Debug, PartialEq, Eq, Hash)]
#[non_exhaustive]
pub enum Refusal {
    /// No columns, or more than [`MOST_COLUMNS`](crate::MOST_COLUMNS); with
    /// [`Rebuilding::OneByte`](crate::Rebuilding::OneByte), [`MOST_ONE_BYTE_COLUMNS`](crate::MOST_ONE_BYTE_COLUMNS).
    ColumnCount = 1,
    /// An unknown hint code, or bad column entries.
    Malformed = 2,
    /// A region, a haystack or a database of more than 16 MiB, a statement of more than 65,536 bytes, or more than 1,024
    /// rows to learn from.
    TooLarge = 3,
    /// A base above 2^48.
    BaseTooFar = 4,
    /// Not a page size of the file format.
    PageSize = 5,
    /// Page 0, or a page that is not wholly in the database.
    NoSuchPage = 6,
    /// A statement without brackets around its columns.
    NoColumnList = 7,
    /// Too few page flags, or a full page stack. This crate lends as much as any walk takes.
    WalkSpace = 8,
    /// The rows of one call need more memory than the caller's limit, or than the machine has.
    NoRoom = 9,
}

impl Refusal {
    /// The number of the header, 1 to 9.
    pub fn number(self) -> u64 {
        self as u64
    }

    /// What a call returned; `None` for 0, which is no refusal.
    pub(crate) fn of(number: u64) -> Option<Refusal> {
        Some(match number {
            0 => return None,
            1 => Refusal::ColumnCount,
            2 => Refusal::Malformed,
            3 => Refusal::TooLarge,
            4 => Refusal::BaseTooFar,
            5 => Refusal::PageSize,
            6 => Refusal::NoSuchPage,
            7 => Refusal::NoColumnList,
            8 => Refusal::WalkSpace,
            9 => Refusal::NoRoom,
            other => unreachable!("the library returns 0 to 9, not {other}"),
        })
    }

    /// Whether there is more than the lists took, where that is to be gone on from and no refusal.
    pub(crate) fn more(number: u64) -> Result<bool, Refusal> {
        match Refusal::of(number) {
            None => Ok(false),
            Some(Refusal::NoRoom) => Ok(true),
            Some(refusal) => Err(refusal),
        }
    }

    /// What a call returned, as a result.
    pub(crate) fn check(number: u64) -> Result<(), Refusal> {
        Refusal::of(number).map_or(Ok(()), Err)
    }
}

impl fmt::Display for Refusal {
    fn fmt(&self, f: &mut fmt::Formatter<'_>) -> fmt::Result {
        let why = match self {
            Refusal::ColumnCount => "a table has 1 to 510 columns, or to 126 with OneByte",
            Refusal::Malformed => "an unknown hint, or bad column entries",
            Refusal::TooLarge => {
                "more than 16 MiB, than 65,536 bytes of a statement, or than 1,024 rows to learn from"
            }
            Refusal::BaseTooFar => "the base is above 2^48",
            Refusal::PageSize => "not a page size",
            Refusal::NoSuchPage => "no such page",
            Refusal::NoColumnList => "the statement has no column list",
            Refusal::WalkSpace => "too little space for the walk",
            Refusal::NoRoom => "the rows need more memory than they may take",
        };
        write!(f, "refused {}: {why}", self.number())
    }
}

impl Error for Refusal {}
