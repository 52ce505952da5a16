//! The layout of TOML texts.

use crate::format::{format, Refused};
use crate::message;
use crate::sys;
use std::error;
use std::fmt;
use std::num::NonZeroUsize;

/// How a TOML text is laid out. The default is 80 columns, an indent of 2, and no limit.
#[derive(Clone, Copy, Debug, PartialEq, Eq, Hash)]
#[non_exhaustive]
pub struct TomlStyle {
    /// The width of a line, in columns.
    pub width: usize,
    /// How many columns the members of a broken array are further in than its brackets.
    pub indent: u32,
    /// The greatest length of the layout in bytes, if there is one. A longer layout is a [`TomlError::PastLimit`].
    /// [`with_limit`](TomlStyle::with_limit) says what it does not bound.
    pub limit: Option<NonZeroUsize>,
}

impl TomlStyle {
    /// Lines of so many columns, an indent of 2, and no limit.
    ///
    /// ```
    /// use yezhgulo::{format_toml, TomlStyle};
    ///
    /// assert_eq!(format_toml("a=[1,2]", &TomlStyle::new(10))?, "a = [1, 2]\n");
    /// assert_eq!(format_toml("a=[1,2]", &TomlStyle::new(9))?, "a = [\n  1, 2,\n]\n");
    /// # Ok::<(), yezhgulo::TomlError>(())
    /// ```
    #[must_use]
    pub const fn new(width: usize) -> TomlStyle {
        TomlStyle {
            width,
            indent: 2,
            limit: None,
        }
    }

    /// The same with an indent of so many columns for the members of a broken array.
    ///
    /// ```
    /// use yezhgulo::{format_toml, TomlStyle};
    ///
    /// assert_eq!(format_toml("a=[1,2]", &TomlStyle::new(0).with_indent(4))?, "a = [\n    1,\n    2,\n]\n");
    /// # Ok::<(), yezhgulo::TomlError>(())
    /// ```
    #[must_use]
    pub const fn with_indent(mut self, indent: u32) -> TomlStyle {
        self.indent = indent;
        self
    }

    /// The same with layouts of at most so many bytes; 0 is for no limit.
    ///
    /// The whole layout is made in memory first, so a limit bounds neither memory nor time: see "Limits" in
    /// `docs/BINDINGS.md` of the repository.
    ///
    /// ```
    /// use yezhgulo::{format_toml, TomlError, TomlStyle};
    ///
    /// let result = format_toml("a=1", &TomlStyle::new(80).with_limit(5));
    /// assert_eq!(result, Err(TomlError::PastLimit));
    /// ```
    #[must_use]
    pub const fn with_limit(mut self, limit: usize) -> TomlStyle {
        self.limit = NonZeroUsize::new(limit);
        self
    }
}

impl Default for TomlStyle {
    fn default() -> TomlStyle {
        TomlStyle::new(80)
    }
}

/// Why a TOML text was not laid out. None of these has the beginning of the layout.
///
/// ```
/// use yezhgulo::{format_toml, TomlError, TomlStyle};
///
/// let error = format_toml("a = 1\nb 2", &TomlStyle::default()).unwrap_err();
/// assert_eq!(error.to_string(), "line 2, column 3: expected `.` or `=`");
/// ```
#[derive(Clone, Debug, PartialEq, Eq)]
#[non_exhaustive]
pub enum TomlError {
    /// The text is not TOML, or more than 128 brackets are in one another.
    NotToml {
        /// The line where the token begins that is wrong, from 1.
        line: usize,
        /// The column there, from 1, in characters.
        column: usize,
        /// What was expected there.
        expected: String,
    },
    /// The layout is longer than the limit of the style.
    PastLimit,
    /// Memory was refused.
    OutOfMemory,
    /// The library gave a status that this crate does not know.
    Unknown {
        /// The status.
        status: u32,
    },
}

impl TomlError {
    /// The error of a status that is not 0.
    fn of(refused: Refused) -> TomlError {
        match refused.status {
            sys::NOT_TOML => TomlError::NotToml {
                line: refused.place.line,
                column: refused.place.column,
                expected: refused.expected(),
            },
            sys::PAST_LIMIT => TomlError::PastLimit,
            sys::MEMORY => TomlError::OutOfMemory,
            status => TomlError::Unknown { status },
        }
    }
}

impl fmt::Display for TomlError {
    fn fmt(&self, f: &mut fmt::Formatter<'_>) -> fmt::Result {
        match self {
            TomlError::NotToml { line, column, expected } => message::refused(*line, *column, expected, f),
            TomlError::PastLimit => f.write_str(message::PAST_LIMIT),
            TomlError::OutOfMemory => f.write_str(message::OUT_OF_MEMORY),
            TomlError::Unknown { status } => message::unknown(*status, f),
        }
    }
}

impl error::Error for TomlError {}

/// The layout of a TOML text, which ends in a line end unless it is empty.
///
/// It has the same statements: each key, value and comment stays as it is spelled. Lines end as the first line of the
/// text does that ends outside of strings, and else in LF. The text may be bytes: bytes that are not UTF-8 are not
/// TOML.
///
/// # Errors
///
/// [`TomlError::NotToml`] where the text is not TOML 1.0 or more than 128 brackets are in one another,
/// [`TomlError::PastLimit`] where the layout is longer than the limit, [`TomlError::OutOfMemory`] where memory is
/// refused. A key that is defined twice is no error.
///
/// ```
/// use yezhgulo::{format_toml, TomlError, TomlStyle};
///
/// let style = TomlStyle::new(12);
/// assert_eq!(format_toml("a=[1,22,333] # three", &style)?, "a = [\n  1, 22,\n  333,\n] # three\n");
///
/// let error = format_toml("a = ", &style).unwrap_err();
/// assert_eq!(error, TomlError::NotToml { line: 1, column: 5, expected: "a value".to_string() });
/// # Ok::<(), TomlError>(())
/// ```
pub fn format_toml(text: impl AsRef<[u8]>, style: &TomlStyle) -> Result<String, TomlError> {
    format(text.as_ref(), style, style.limit, sys::layout_toml).map_err(TomlError::of)
}
