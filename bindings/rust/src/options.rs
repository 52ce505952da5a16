//! How a document is laid out.

use std::num::NonZeroUsize;

/// What ends a line.
///
/// A text of several lines keeps its own line ends.
#[derive(Clone, Copy, Debug, Default, PartialEq, Eq, Hash)]
pub enum LineEnding {
    /// LF.
    #[default]
    Lf,
    /// CR and LF.
    Crlf,
}

impl LineEnding {
    /// The bytes that end a line.
    ///
    /// ```
    /// use yezhgulo::LineEnding;
    ///
    /// assert_eq!(LineEnding::Crlf.as_str(), "\r\n");
    /// ```
    #[must_use]
    pub const fn as_str(self) -> &'static str {
        match self {
            LineEnding::Lf => "\n",
            LineEnding::Crlf => "\r\n",
        }
    }
}

/// When the indent of a line is written: only lines without content differ.
#[derive(Clone, Copy, Debug, Default, PartialEq, Eq, Hash)]
pub enum IndentationPolicy {
    /// At once, so that an empty line inside a `nest` has trailing spaces.
    #[default]
    Eager,
    /// Before the first content of the line, so that an empty line has none.
    Deferred,
}

/// How a document is laid out. The default is 80 columns, LF, indents at once, and no limit.
///
/// ```
/// use yezhgulo::{Doc, IndentationPolicy, LineEnding, RenderOptions};
///
/// let lines = (Doc::text("a") + Doc::hard_line() + Doc::hard_line() + "b").nest(2);
/// let options = RenderOptions::new(80).with_line_ending(LineEnding::Crlf);
/// assert_eq!(lines.layout(&options)?, "a\r\n  \r\n  b");
///
/// let options = options.with_indentation_policy(IndentationPolicy::Deferred);
/// assert_eq!(lines.layout(&options)?, "a\r\n\r\n  b");
/// # Ok::<(), yezhgulo::Error>(())
/// ```
#[derive(Clone, Copy, Debug, PartialEq, Eq, Hash)]
#[non_exhaustive]
pub struct RenderOptions {
    /// The width of a line, in columns.
    pub width: usize,
    /// What ends a line.
    pub line_ending: LineEnding,
    /// When the indent of a line is written.
    pub indentation_policy: IndentationPolicy,
    /// The greatest length of the layout in bytes, if there is one. A longer layout is an
    /// [`Error::PastLimit`](crate::Error::PastLimit). [`with_limit`](RenderOptions::with_limit) says what it does not
    /// bound.
    pub limit: Option<NonZeroUsize>,
}

impl RenderOptions {
    /// Lines of so many columns, LF, indents at once, and no limit.
    ///
    /// ```
    /// use yezhgulo::{LineEnding, RenderOptions};
    ///
    /// let options = RenderOptions::new(100);
    /// assert_eq!((options.width, options.line_ending, options.limit), (100, LineEnding::Lf, None));
    /// ```
    #[must_use]
    pub const fn new(width: usize) -> RenderOptions {
        RenderOptions {
            width,
            line_ending: LineEnding::Lf,
            indentation_policy: IndentationPolicy::Eager,
            limit: None,
        }
    }

    /// The same with lines of so many columns.
    ///
    /// ```
    /// use yezhgulo::RenderOptions;
    ///
    /// assert_eq!(RenderOptions::default().with_width(40), RenderOptions::new(40));
    /// ```
    #[must_use]
    pub const fn with_width(mut self, width: usize) -> RenderOptions {
        self.width = width;
        self
    }

    /// The same with these line ends.
    ///
    /// ```
    /// use yezhgulo::{Doc, LineEnding, RenderOptions};
    ///
    /// let options = RenderOptions::new(80).with_line_ending(LineEnding::Crlf);
    /// assert_eq!(Doc::hard_line().layout(&options)?, "\r\n");
    /// # Ok::<(), yezhgulo::Error>(())
    /// ```
    #[must_use]
    pub const fn with_line_ending(mut self, line_ending: LineEnding) -> RenderOptions {
        self.line_ending = line_ending;
        self
    }

    /// The same with indents at once or later.
    ///
    /// ```
    /// use yezhgulo::{Doc, IndentationPolicy, RenderOptions};
    ///
    /// let options = RenderOptions::new(80).with_indentation_policy(IndentationPolicy::Deferred);
    /// assert_eq!(Doc::hard_line().nest(2).layout(&options)?, "\n");
    /// # Ok::<(), yezhgulo::Error>(())
    /// ```
    #[must_use]
    pub const fn with_indentation_policy(mut self, indentation_policy: IndentationPolicy) -> RenderOptions {
        self.indentation_policy = indentation_policy;
        self
    }

    /// The same with layouts of at most so many bytes; 0 is for no limit.
    ///
    /// A short document may have a very long layout. Where there is a limit, the layout ends once it is past it.
    ///
    /// A limit does not bound the memory of the first document of a [`union`](crate::Doc::union), which is laid in
    /// memory before it is kept: see "Limits" in `docs/BINDINGS.md` of the repository.
    ///
    /// ```
    /// use yezhgulo::{Doc, Error, RenderOptions};
    ///
    /// let far = (Doc::hard_line() + "a").nest(1 << 28);
    /// let result = far.layout(&RenderOptions::new(80).with_limit(1000));
    /// assert!(matches!(result, Err(Error::PastLimit { .. })));
    /// ```
    #[must_use]
    pub const fn with_limit(mut self, limit: usize) -> RenderOptions {
        self.limit = NonZeroUsize::new(limit);
        self
    }
}

impl Default for RenderOptions {
    fn default() -> RenderOptions {
        RenderOptions::new(80)
    }
}
