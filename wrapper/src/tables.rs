//! Tables of a database.

use crate::Hint;

/// A table of a database: its name, the page of its root, and a hint for each column.
///
/// ```
/// # use phsarodil::{Hint, Table};
/// let table = Table::new("readings", 2, Hint::of_statement(b"readings(plot TEXT, day INTEGER)")?);
/// assert_eq!((table.name.as_str(), table.root, table.hints.len()), ("readings", 2, 2));
/// # Ok::<(), phsarodil::Refusal>(())
/// ```
#[derive(Clone, Debug, PartialEq, Eq)]
#[non_exhaustive]
pub struct Table {
    /// Its name, which a row found in it leads back to ([`Record::table`](crate::Record::table)). No call looks at it.
    pub name: String,
    /// The page of its root.
    pub root: u64,
    /// A hint for each column, as its records have them: [`Hint::Null`] in the place of an INTEGER PRIMARY KEY.
    pub hints: Vec<Hint>,
}

impl Table {
    /// A table of that name, root page and hints.
    pub fn new(name: impl Into<String>, root: u64, hints: Vec<Hint>) -> Table {
        let name = name.into();
        Table { name, root, hints }
    }
}
