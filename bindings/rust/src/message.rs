//! What the errors of several calls say in the same words.

use std::fmt::{Formatter, Result};

pub(crate) const PAST_LIMIT: &str = "the layout is longer than its limit";
pub(crate) const OUT_OF_MEMORY: &str = "memory was refused";

/// Says that a status is not known.
pub(crate) fn unknown(status: u32, f: &mut Formatter<'_>) -> Result {
    write!(f, "the library gave the unknown status {status}")
}

/// Says where a text is refused, and what was expected there.
pub(crate) fn refused(line: usize, column: usize, expected: &str, f: &mut Formatter<'_>) -> Result {
    write!(f, "line {line}, column {column}: expected {expected}")
}
