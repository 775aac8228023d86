//! The rules, written plainly: what each call has to answer, refusals and header counts too. Nothing here is taken
//! from the proved code, and nothing is fast.

pub mod attempt;
pub mod carve;
pub mod freeblock;
pub mod gap;
pub mod learn;
pub mod limits;
pub mod page;
pub mod statement;
pub mod value;
pub mod varint;
pub mod walk;
