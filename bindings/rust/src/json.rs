//! The layout of JSON texts.

use crate::format::{format, Refused};
use crate::message;
use crate::sys;
use std::error;
use std::fmt;
use std::num::NonZeroUsize;

/// How a JSON text is laid out. The default is 80 columns, an indent of 2, lines that are not filled, no blank lines, and
/// no limit.
#[derive(Clone, Copy, Debug, PartialEq, Eq, Hash)]
#[non_exhaustive]
pub struct JsonStyle {
    /// The width of a line, in columns.
    pub width: usize,
    /// How many columns the members of an object or an array are further in than its brackets.
    pub indent: u32,
    /// Whether an array of numbers alone fills its lines. Otherwise it has one line, or a line for each number.
    pub fill: bool,
    /// Whether blank lines between members stay where lines are broken, of several one.
    pub keep_blank_lines: bool,
    /// The greatest length of the layout in bytes, if there is one. A longer layout is a [`JsonError::PastLimit`].
    pub limit: Option<NonZeroUsize>,
}

impl JsonStyle {
    /// Lines of so many columns, an indent of 2, lines that are not filled, no blank lines, and no limit.
    ///
    /// ```
    /// use yezhgulo::{format_json, JsonStyle};
    ///
    /// assert_eq!(format_json("[1,2]", &JsonStyle::new(6))?, "[1, 2]\n");
    /// assert_eq!(format_json("[1,2]", &JsonStyle::new(5))?, "[\n  1,\n  2\n]\n");
    /// # Ok::<(), yezhgulo::JsonError>(())
    /// ```
    #[must_use]
    pub const fn new(width: usize) -> JsonStyle {
        JsonStyle {
            width,
            indent: 2,
            fill: false,
            keep_blank_lines: false,
            limit: None,
        }
    }

    /// The same with an indent of so many columns for each level.
    ///
    /// ```
    /// use yezhgulo::{format_json, JsonStyle};
    ///
    /// assert_eq!(format_json("[1,2]", &JsonStyle::new(0).with_indent(4))?, "[\n    1,\n    2\n]\n");
    /// # Ok::<(), yezhgulo::JsonError>(())
    /// ```
    #[must_use]
    pub const fn with_indent(mut self, indent: u32) -> JsonStyle {
        self.indent = indent;
        self
    }

    /// The same, where an array of numbers alone fills its lines, or not.
    ///
    /// ```
    /// use yezhgulo::{format_json, JsonStyle};
    ///
    /// assert_eq!(format_json("[1,2,3]", &JsonStyle::new(7).with_fill(true))?, "[\n  1, 2,\n  3\n]\n");
    /// # Ok::<(), yezhgulo::JsonError>(())
    /// ```
    #[must_use]
    pub const fn with_fill(mut self, fill: bool) -> JsonStyle {
        self.fill = fill;
        self
    }

    /// The same, where blank lines between members stay, of several one, or not. A list that fits on one line has none.
    ///
    /// ```
    /// use yezhgulo::{format_json, JsonStyle};
    ///
    /// let style = JsonStyle::new(5).with_keep_blank_lines(true);
    /// assert_eq!(format_json("[1,\n\n\n2]", &style)?, "[\n  1,\n\n  2\n]\n");
    /// # Ok::<(), yezhgulo::JsonError>(())
    /// ```
    #[must_use]
    pub const fn with_keep_blank_lines(mut self, keep_blank_lines: bool) -> JsonStyle {
        self.keep_blank_lines = keep_blank_lines;
        self
    }

    /// The same with layouts of at most so many bytes; 0 is for no limit.
    ///
    /// A short text may have a very long layout. Where there is a limit, the layout ends once it is past it.
    ///
    /// ```
    /// use yezhgulo::{format_json, JsonError, JsonStyle};
    ///
    /// let result = format_json("[1,2]", &JsonStyle::new(80).with_limit(6));
    /// assert_eq!(result, Err(JsonError::PastLimit));
    /// ```
    #[must_use]
    pub const fn with_limit(mut self, limit: usize) -> JsonStyle {
        self.limit = NonZeroUsize::new(limit);
        self
    }
}

impl Default for JsonStyle {
    fn default() -> JsonStyle {
        JsonStyle::new(80)
    }
}

/// Why a JSON text was not laid out. None of these has the beginning of the layout.
///
/// ```
/// use yezhgulo::{format_json, JsonError, JsonStyle};
///
/// let error = format_json("{\n  \"a\" 1}", &JsonStyle::default()).unwrap_err();
/// assert_eq!(error.to_string(), "line 2, column 7: expected `:`");
/// ```
#[derive(Clone, Debug, PartialEq, Eq)]
#[non_exhaustive]
pub enum JsonError {
    /// The text is not JSON, or is more than 100,000 levels deep.
    NotJson {
        /// The line where the token begins that is wrong, or the part of a string that is, from 1.
        line: usize,
        /// The column there, from 1, in characters.
        column: usize,
        /// What was expected there.
        expected: String,
    },
    /// The layout is longer than the limit of the style.
    PastLimit,
    /// Memory was refused.
    OutOfMemory,
    /// The library gave a status that this crate does not know.
    Unknown {
        /// The status.
        status: u32,
    },
}

impl JsonError {
    /// The error of a status that is not 0.
    fn of(refused: Refused) -> JsonError {
        match refused.status {
            sys::NOT_JSON => JsonError::NotJson {
                line: refused.place.line,
                column: refused.place.column,
                expected: refused.expected(),
            },
            sys::PAST_LIMIT => JsonError::PastLimit,
            sys::MEMORY => JsonError::OutOfMemory,
            status => JsonError::Unknown { status },
        }
    }
}

impl fmt::Display for JsonError {
    fn fmt(&self, f: &mut fmt::Formatter<'_>) -> fmt::Result {
        match self {
            JsonError::NotJson { line, column, expected } => message::refused(*line, *column, expected, f),
            JsonError::PastLimit => f.write_str(message::PAST_LIMIT),
            JsonError::OutOfMemory => f.write_str(message::OUT_OF_MEMORY),
            JsonError::Unknown { status } => message::unknown(*status, f),
        }
    }
}

impl error::Error for JsonError {}

/// The layout of a JSON text, which ends in a line feed.
///
/// Each lexeme stays as it is spelled. The text may be bytes: bytes that are not UTF-8 are not JSON.
///
/// # Errors
///
/// [`JsonError::NotJson`] where the text is not JSON (RFC 8259) or is more than 100,000 levels deep,
/// [`JsonError::PastLimit`] where the layout is longer than the limit, [`JsonError::OutOfMemory`] where memory is
/// refused.
///
/// ```
/// use yezhgulo::{format_json, JsonError, JsonStyle};
///
/// let style = JsonStyle::new(12);
/// assert_eq!(format_json(r#"{"a":[1,2]}"#, &style)?, "{\n  \"a\": [\n    1,\n    2\n  ]\n}\n");
///
/// let error = format_json("[1,", &style).unwrap_err();
/// assert_eq!(error, JsonError::NotJson { line: 1, column: 4, expected: "a value".to_string() });
/// # Ok::<(), JsonError>(())
/// ```
pub fn format_json(text: impl AsRef<[u8]>, style: &JsonStyle) -> Result<String, JsonError> {
    format(text.as_ref(), style, style.limit, sys::layout_json).map_err(JsonError::of)
}
