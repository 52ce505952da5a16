//! A pretty printer: it lays documents out within a line width.
//!
//! A document is made of texts, line breaks, indents and groups. The printer lays each group on one line where it fits,
//! and breaks its lines where it does not. The names are those of the crate `prettyless` where the calls are the same.
//!
//! ```
//! use yezhgulo::Doc;
//!
//! let list = |items: &[&str]| {
//!     let items = Doc::intersperse(items.iter().copied(), Doc::text(",") + Doc::line());
//!     (Doc::text("[") + (Doc::line_() + items).nest(2) + Doc::line_() + "]").group()
//! };
//!
//! let pair = list(&["one", "two"]);
//! assert_eq!(pair.pretty(10)?, "[one, two]");
//! assert_eq!(pair.pretty(9)?, "[\n  one,\n  two\n]");
//! # Ok::<(), yezhgulo::Error>(())
//! ```
//!
//! # Two ways to make a document
//!
//! - A [`Doc`] is a value. Documents are put together by `+` and by methods, and handed from function to function.
//! - A [`Writer`] writes the nodes of a document one after the other, into one buffer. It is faster, and suits code
//!   that walks a tree from left to right.
//!
//! # How a layout is made
//!
//! [`Doc::pretty`] takes a width in columns. [`Doc::layout`] takes [`RenderOptions`]: also what ends a line, when an
//! indent is written, and the greatest length of the layout. [`Doc::layout_into`] adds the layout to a buffer, and
//! [`Doc::print`] makes a value for `{}`. A layout that cannot be made is an [`Error`]. `Fails`, `PastLimit` and
//! `OutOfMemory` carry the beginning of the layout, in `written`.
//!
//! Documents and writers can be sent to other threads, and any number of threads may lay documents out at once.
//!
//! # JSON and TOML
//!
//! [`format_json`] lays out a JSON text of at most 100,000 levels and [`format_toml`] a TOML text of at most 128, or says
//! where a token is wrong.
//!
//! # What is proved
//!
//! The printer is a library that is written in Rattle, Rust with contracts. Its proofs are about the calls of the
//! library. This crate writes the bytes that a call takes, and makes it: that is tested, and not proved.

#![warn(missing_docs)]
#![deny(unsafe_code)]

mod area;
mod bytes;
mod choice;
mod code;
mod doc;
mod error;
mod format;
mod json;
mod layout;
mod listing;
mod message;
mod options;
mod sys;
mod toml;
mod writer;

pub use choice::{ColumnTest, NestingTest};
pub use doc::Doc;
pub use error::{Error, Fault};
pub use json::{format_json, JsonError, JsonStyle};
pub use layout::{layout, Print};
pub use options::{IndentationPolicy, LineEnding, RenderOptions};
pub use toml::{format_toml, TomlError, TomlStyle};
pub use writer::Writer;

/// The version of this crate, and of the library that it came with.
pub const VERSION: &str = env!("CARGO_PKG_VERSION");
