//! The layout of a document.

use crate::area::{fill_or_take, text_of};
use crate::doc::Doc;
use crate::error::Error;
use crate::listing::Listing;
use crate::options::RenderOptions;
use crate::sys;
use crate::writer::Writer;
use std::fmt;
use std::num::NonZeroUsize;

/// The room that a layout gets at first. Most layouts fit in it, so they are made once.
fn first_room(program: &[u8], options: &RenderOptions) -> usize {
    let limit = options.limit.map_or(usize::MAX, NonZeroUsize::get);
    (program.len() + 32).saturating_mul(2).min(limit)
}

fn layout_into(program: &[u8], options: &RenderOptions, out: &mut Vec<u8>) -> Result<(), Error> {
    fill_or_take(out, first_room(program, options), |area| {
        sys::layout(program, options, area)
    })
    .map_err(|(status, written)| Error::of(status, written))
}

/// The layout of the document that a program writes.
///
/// A program is what [`Doc::program`] and [`Writer::program`] give. It may be stored, and laid out later.
///
/// # Errors
///
/// Those of [`Doc::layout`], and [`Error::NotAProgram`] where the bytes are no program.
///
/// ```
/// use yezhgulo::{layout, Doc, RenderOptions};
///
/// let program = (Doc::text("a") + Doc::line() + "b").group().into_program();
/// assert_eq!(layout(&program, &RenderOptions::new(3))?, "a b");
/// assert_eq!(layout(&program, &RenderOptions::new(2))?, "a\nb");
/// # Ok::<(), yezhgulo::Error>(())
/// ```
pub fn layout(program: &[u8], options: &RenderOptions) -> Result<String, Error> {
    let mut out = Vec::new();
    layout_into(program, options, &mut out)?;
    Ok(text_of(out))
}

/// A document and options, which `{}` lays out. [`Doc::print`] and [`Writer::print`] make it.
///
/// Where the layout fails, so does the formatting, by a [`fmt::Error`], and nothing is written. So `println!`,
/// `format!` and `to_string` panic there, as they do for every value whose formatting fails; `write!` gives the error.
///
/// ```
/// use std::fmt::Write;
/// use yezhgulo::Doc;
///
/// let mut out = String::new();
/// assert!(write!(out, "{}", Doc::fail().print(80)).is_err());
/// ```
#[derive(Clone, Copy)]
#[must_use]
pub struct Print<'a> {
    program: &'a [u8],
    options: RenderOptions,
}

impl fmt::Display for Print<'_> {
    fn fmt(&self, f: &mut fmt::Formatter<'_>) -> fmt::Result {
        match layout(self.program, &self.options) {
            Ok(text) => f.write_str(&text),
            Err(_) => Err(fmt::Error),
        }
    }
}

impl fmt::Debug for Print<'_> {
    fn fmt(&self, f: &mut fmt::Formatter<'_>) -> fmt::Result {
        f.debug_struct("Print")
            .field("program", &Listing(self.program))
            .field("options", &self.options)
            .finish()
    }
}

impl Doc {
    /// The layout with these options.
    ///
    /// # Errors
    ///
    /// [`Error::Fails`] where the document cannot be laid out, [`Error::PastLimit`] where the layout is longer than the
    /// limit, [`Error::OutOfMemory`] where memory is refused.
    ///
    /// ```
    /// use yezhgulo::{Doc, LineEnding, RenderOptions};
    ///
    /// let options = RenderOptions::new(80).with_line_ending(LineEnding::Crlf);
    /// assert_eq!((Doc::text("a") + Doc::line() + "b").layout(&options)?, "a\r\nb");
    /// # Ok::<(), yezhgulo::Error>(())
    /// ```
    pub fn layout(&self, options: &RenderOptions) -> Result<String, Error> {
        layout(self.program(), options)
    }

    /// The layout within so many columns: lines end in LF, empty lines keep their indent, no limit
    /// ([`RenderOptions::new`]).
    ///
    /// # Errors
    ///
    /// [`Error::Fails`] where the document cannot be laid out, [`Error::OutOfMemory`] where memory is refused.
    ///
    /// ```
    /// use yezhgulo::Doc;
    ///
    /// let pair = (Doc::text("a") + Doc::line() + "b").group();
    /// assert_eq!(pair.pretty(3)?, "a b");
    /// # Ok::<(), yezhgulo::Error>(())
    /// ```
    pub fn pretty(&self, width: usize) -> Result<String, Error> {
        self.layout(&RenderOptions::new(width))
    }

    /// Puts the layout after the bytes of `out`, which are left as they are. The memory of `out` can be used again
    /// for many layouts.
    ///
    /// # Errors
    ///
    /// Those of [`Doc::layout`]. After an error `out` has the bytes that it had.
    ///
    /// ```
    /// use yezhgulo::{Doc, RenderOptions};
    ///
    /// let mut out = b"> ".to_vec();
    /// Doc::text("a").layout_into(&RenderOptions::new(80), &mut out)?;
    /// assert_eq!(out, b"> a");
    /// # Ok::<(), yezhgulo::Error>(())
    /// ```
    pub fn layout_into(&self, options: &RenderOptions, out: &mut Vec<u8>) -> Result<(), Error> {
        layout_into(self.program(), options, out)
    }

    /// A value that `{}` shows as the layout within so many columns.
    ///
    /// # Panics
    ///
    /// This call does not. Where the layout fails, showing the value fails too, so `println!`, `format!` and
    /// `to_string` panic: see [`Print`]. [`pretty`](Doc::pretty) gives the error.
    ///
    /// ```
    /// use yezhgulo::Doc;
    ///
    /// let pair = (Doc::text("a") + Doc::line() + "b").group();
    /// assert_eq!(format!("{};", pair.print(80)), "a b;");
    /// ```
    pub fn print(&self, width: usize) -> Print<'_> {
        self.print_with(&RenderOptions::new(width))
    }

    /// A value that `{}` shows as the layout with these options.
    ///
    /// # Panics
    ///
    /// This call does not. Where the layout fails, showing the value fails too, so `println!`, `format!` and
    /// `to_string` panic: see [`Print`]. [`layout`](Doc::layout) gives the error.
    ///
    /// ```
    /// use yezhgulo::{Doc, RenderOptions};
    ///
    /// assert_eq!(Doc::text("a").print_with(&RenderOptions::default()).to_string(), "a");
    /// ```
    pub fn print_with(&self, options: &RenderOptions) -> Print<'_> {
        Print {
            program: self.program(),
            options: *options,
        }
    }
}

impl Writer {
    /// The layout of what was written, with these options.
    ///
    /// # Errors
    ///
    /// Those of [`Doc::layout`], and [`Error::NotAProgram`] where a panic in a closure left a document open.
    ///
    /// ```
    /// use yezhgulo::{LineEnding, RenderOptions, Writer};
    ///
    /// let mut w = Writer::new();
    /// w.text("a").line().text("b");
    /// let options = RenderOptions::new(80).with_line_ending(LineEnding::Crlf);
    /// assert_eq!(w.layout(&options)?, "a\r\nb");
    /// # Ok::<(), yezhgulo::Error>(())
    /// ```
    pub fn layout(&self, options: &RenderOptions) -> Result<String, Error> {
        layout(self.program(), options)
    }

    /// The layout of what was written, within so many columns: lines end in LF, empty lines keep their indent, no limit
    /// ([`RenderOptions::new`]).
    ///
    /// # Errors
    ///
    /// Those of [`Doc::pretty`], and [`Error::NotAProgram`] where a panic in a closure left a document open.
    ///
    /// ```
    /// use yezhgulo::Writer;
    ///
    /// let mut w = Writer::new();
    /// w.text("a").softline().text("b");
    /// assert_eq!(w.pretty(2)?, "a\nb");
    /// # Ok::<(), yezhgulo::Error>(())
    /// ```
    pub fn pretty(&self, width: usize) -> Result<String, Error> {
        self.layout(&RenderOptions::new(width))
    }

    /// Puts the layout of what was written after the bytes of `out`, which are left as they are.
    ///
    /// # Errors
    ///
    /// Those of [`Writer::layout`]. After an error `out` has the bytes that it had.
    ///
    /// ```
    /// use yezhgulo::{RenderOptions, Writer};
    ///
    /// let mut out = Vec::new();
    /// let mut w = Writer::new();
    /// for name in ["a", "b"] {
    ///     w.clear();
    ///     w.text(name).text(";").hard_line();
    ///     w.layout_into(&RenderOptions::new(80), &mut out)?;
    /// }
    /// assert_eq!(out, b"a;\nb;\n");
    /// # Ok::<(), yezhgulo::Error>(())
    /// ```
    pub fn layout_into(&self, options: &RenderOptions, out: &mut Vec<u8>) -> Result<(), Error> {
        layout_into(self.program(), options, out)
    }

    /// A value that `{}` shows as the layout of what was written, within so many columns.
    ///
    /// # Panics
    ///
    /// This call does not. Where the layout fails, showing the value fails too, so `println!`, `format!` and
    /// `to_string` panic: see [`Print`]. [`pretty`](Writer::pretty) gives the error.
    ///
    /// ```
    /// use yezhgulo::Writer;
    ///
    /// let mut w = Writer::new();
    /// w.text("a");
    /// assert_eq!(w.print(80).to_string(), "a");
    /// ```
    pub fn print(&self, width: usize) -> Print<'_> {
        self.print_with(&RenderOptions::new(width))
    }

    /// A value that `{}` shows as the layout of what was written, with these options.
    ///
    /// # Panics
    ///
    /// This call does not. Where the layout fails, showing the value fails too, so `println!`, `format!` and
    /// `to_string` panic: see [`Print`]. [`layout`](Writer::layout) gives the error.
    ///
    /// ```
    /// use yezhgulo::{RenderOptions, Writer};
    ///
    /// let mut w = Writer::new();
    /// w.text("a");
    /// assert_eq!(w.print_with(&RenderOptions::default()).to_string(), "a");
    /// ```
    pub fn print_with(&self, options: &RenderOptions) -> Print<'_> {
        Print {
            program: self.program(),
            options: *options,
        }
    }
}
