//! What a choice between two documents asks.

use crate::code;

/// What [`Doc::if_column`](crate::Doc::if_column) asks of the column in which the next content would begin.
///
/// Columns count from 0, and weak spaces that wait count.
///
/// ```
/// use yezhgulo::ColumnTest;
///
/// assert!(ColumnTest::AtMost(3).holds(3, 0));
/// assert!(!ColumnTest::AtLeast(4).holds(3, 0));
/// assert!(ColumnTest::IsNesting.holds(3, 3));
/// ```
#[derive(Clone, Copy, Debug, PartialEq, Eq, Hash)]
pub enum ColumnTest {
    /// The column is at most this one.
    AtMost(usize),
    /// The column is at least this one.
    AtLeast(usize),
    /// The column is the indent.
    IsNesting,
}

impl ColumnTest {
    /// Whether the test holds in this column, where the indent is `indent` columns.
    ///
    /// ```
    /// use yezhgulo::ColumnTest;
    ///
    /// assert!(!ColumnTest::IsNesting.holds(3, 2));
    /// ```
    #[must_use]
    pub const fn holds(self, column: usize, indent: usize) -> bool {
        match self {
            ColumnTest::AtMost(most) => column <= most,
            ColumnTest::AtLeast(least) => column >= least,
            ColumnTest::IsNesting => column == indent,
        }
    }

    /// Hands out the instruction that chooses by this test.
    pub(crate) fn with_instruction<T>(self, take: impl FnOnce(&[u8]) -> T) -> T {
        match self {
            ColumnTest::AtMost(most) => take(&code::with_number(code::COLUMN_AT_MOST, most as u64)),
            ColumnTest::AtLeast(least) => take(&code::with_number(code::COLUMN_AT_LEAST, least as u64)),
            ColumnTest::IsNesting => take(&[code::COLUMN_IS_NESTING]),
        }
    }
}

/// What [`Doc::if_nesting`](crate::Doc::if_nesting) asks of the indent, in columns.
///
/// ```
/// use yezhgulo::NestingTest;
///
/// assert!(NestingTest::AtMost(4).holds(4));
/// assert!(!NestingTest::AtLeast(5).holds(4));
/// ```
#[derive(Clone, Copy, Debug, PartialEq, Eq, Hash)]
pub enum NestingTest {
    /// The indent is at most this.
    AtMost(usize),
    /// The indent is at least this.
    AtLeast(usize),
}

impl NestingTest {
    /// Whether the test holds for this indent.
    ///
    /// ```
    /// use yezhgulo::NestingTest;
    ///
    /// assert!(NestingTest::AtLeast(2).holds(2));
    /// ```
    #[must_use]
    pub const fn holds(self, indent: usize) -> bool {
        match self {
            NestingTest::AtMost(most) => indent <= most,
            NestingTest::AtLeast(least) => indent >= least,
        }
    }

    /// The instruction that chooses by this test.
    pub(crate) fn instruction(self) -> [u8; 9] {
        match self {
            NestingTest::AtMost(most) => code::with_number(code::NESTING_AT_MOST, most as u64),
            NestingTest::AtLeast(least) => code::with_number(code::NESTING_AT_LEAST, least as u64),
        }
    }
}
