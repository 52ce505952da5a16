//! Why a document has no layout.

use crate::message;
use crate::sys;
use std::error;
use std::fmt;

/// Why a document was not laid out.
///
/// ```
/// use yezhgulo::{Doc, Error};
///
/// let error = (Doc::text("ab") + Doc::fail()).pretty(80).unwrap_err();
/// assert_eq!(error, Error::Fails { written: b"ab".to_vec() });
/// assert_eq!(error.to_string(), "the document cannot be laid out: a node fails after 2 bytes");
/// assert_eq!(format!("{error:?}"), r#"Fails { written: "ab" }"#);
/// ```
#[derive(Clone, PartialEq, Eq)]
#[non_exhaustive]
pub enum Error {
    /// A node that fails was to be laid: a [`fail`](crate::Doc::fail), or a hard line or a text of several lines
    /// under [`flatten`](crate::Doc::flatten).
    Fails {
        /// The bytes of the layout before that node; a beginning of these if memory is short. A character may be cut
        /// off at the end of such a beginning.
        written: Vec<u8>,
    },
    /// The layout is longer than the limit of the options.
    PastLimit {
        /// A beginning of the layout. A character may be cut off at its end.
        written: Vec<u8>,
    },
    /// Memory was refused.
    OutOfMemory {
        /// A beginning of the layout. A character may be cut off at its end.
        written: Vec<u8>,
    },
    /// The bytes are no program. This comes of [`layout`](crate::layout), and of a [`Writer`](crate::Writer) after a
    /// panic inside one of its calls.
    NotAProgram(Fault),
    /// The library gave a status that this crate does not know.
    Unknown {
        /// The status.
        status: u32,
    },
}

impl Error {
    /// The error of a status that is not 0.
    pub(crate) fn of(status: u32, written: Vec<u8>) -> Error {
        match status {
            sys::FAILS => Error::Fails { written },
            sys::PAST_LIMIT => Error::PastLimit { written },
            sys::MEMORY => Error::OutOfMemory { written },
            _ => Fault::of(status).map_or(Error::Unknown { status }, Error::NotAProgram),
        }
    }

    /// The beginning of the layout that was made, which may be empty. It is empty for
    /// [`NotAProgram`](Error::NotAProgram) and [`Unknown`](Error::Unknown), which have none.
    ///
    /// ```
    /// use yezhgulo::{Doc, RenderOptions};
    ///
    /// let error = Doc::text("abc").layout(&RenderOptions::new(80).with_limit(2)).unwrap_err();
    /// assert!(b"abc".starts_with(error.written()));
    /// ```
    #[must_use]
    pub fn written(&self) -> &[u8] {
        match self {
            Error::Fails { written } | Error::PastLimit { written } | Error::OutOfMemory { written } => written,
            Error::NotAProgram(_) | Error::Unknown { .. } => &[],
        }
    }
}

/// How many characters `{:?}` shows of a layout.
const SHOWN: usize = 60;

/// The beginning of a layout, as `{:?}` shows it: a text, or the end of one.
struct Written<'w>(&'w [u8]);

impl fmt::Debug for Written<'_> {
    fn fmt(&self, f: &mut fmt::Formatter<'_>) -> fmt::Result {
        // A character has four bytes at most, and the first of these may be cut off.
        let skipped = self.0.len().saturating_sub(4 * (SHOWN + 1));
        let text = String::from_utf8_lossy(&self.0[skipped..]);
        let end = text.char_indices().rev().nth(SHOWN - 1).map_or(0, |(at, _)| at);
        if skipped + end > 0 {
            write!(f, "{} bytes that end in ", self.0.len())?;
        }
        fmt::Debug::fmt(&text[end..], f)
    }
}

/// Shows what was written as a text. Of a long one it shows the length and the last 60 characters.
impl fmt::Debug for Error {
    fn fmt(&self, f: &mut fmt::Formatter<'_>) -> fmt::Result {
        let name = match self {
            Error::Fails { .. } => "Fails",
            Error::PastLimit { .. } => "PastLimit",
            Error::OutOfMemory { .. } => "OutOfMemory",
            Error::NotAProgram(fault) => return f.debug_tuple("NotAProgram").field(fault).finish(),
            Error::Unknown { status } => return f.debug_struct("Unknown").field("status", status).finish(),
        };
        f.debug_struct(name).field("written", &Written(self.written())).finish()
    }
}

impl fmt::Display for Error {
    fn fmt(&self, f: &mut fmt::Formatter<'_>) -> fmt::Result {
        match self {
            Error::Fails { written } => {
                write!(
                    f,
                    "the document cannot be laid out: a node fails after {} bytes",
                    written.len()
                )
            }
            Error::PastLimit { .. } => f.write_str(message::PAST_LIMIT),
            Error::OutOfMemory { .. } => f.write_str(message::OUT_OF_MEMORY),
            Error::NotAProgram(fault) => write!(f, "the bytes are no program: {fault}"),
            Error::Unknown { status } => message::unknown(*status, f),
        }
    }
}

impl error::Error for Error {}

/// Why bytes are no program.
///
/// ```
/// use yezhgulo::{layout, Error, Fault, RenderOptions};
///
/// let result = layout(&[255], &RenderOptions::new(80));
/// assert_eq!(result, Err(Error::NotAProgram(Fault::Instruction)));
/// ```
#[derive(Clone, Copy, Debug, PartialEq, Eq, Hash)]
#[non_exhaustive]
pub enum Fault {
    /// A byte begins no instruction.
    Instruction,
    /// The bytes end inside an instruction.
    Operand,
    /// A text is not UTF-8.
    Text,
    /// An instruction takes more documents than were made since a sequence was opened last.
    Document,
    /// A sequence is closed that was not opened.
    Unopened,
    /// A sequence is open at the end.
    Unclosed,
}

impl Fault {
    fn of(status: u32) -> Option<Fault> {
        Some(match status {
            sys::INSTRUCTION => Fault::Instruction,
            sys::OPERAND => Fault::Operand,
            sys::TEXT => Fault::Text,
            sys::DOCUMENT => Fault::Document,
            sys::UNOPENED => Fault::Unopened,
            sys::UNCLOSED => Fault::Unclosed,
            _ => return None,
        })
    }
}

impl fmt::Display for Fault {
    fn fmt(&self, f: &mut fmt::Formatter<'_>) -> fmt::Result {
        f.write_str(match self {
            Fault::Instruction => "a byte begins no instruction",
            Fault::Operand => "the bytes end inside an instruction",
            Fault::Text => "a text is not UTF-8",
            Fault::Document => "an instruction takes more documents than were made",
            Fault::Unopened => "a sequence is closed that was not opened",
            Fault::Unclosed => "a sequence is open at the end",
        })
    }
}
