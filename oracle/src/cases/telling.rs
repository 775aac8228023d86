//! Cases for the recording, each of which tells one rule.

pub mod lists;
pub mod rebuilding;
pub mod rows;
pub mod values;
pub mod wide;

use super::{learning, padding};
use crate::runner::Sink;

pub fn all(sink: &mut dyn Sink) {
    values::all(sink);
    rows::all(sink);
    lists::all(sink);
    rebuilding::all(sink);
    wide::all(sink);
    learning::unused(sink);
    padding::varints(sink);
}
