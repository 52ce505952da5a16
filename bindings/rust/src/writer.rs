//! Documents that are written node by node into one buffer.

use crate::choice::{ColumnTest, NestingTest};
use crate::code;
use crate::doc::Doc;
use crate::listing::Listing;
use std::fmt::{self, Write};

/// Writes documents one after the other, as one document.
///
/// All goes into one buffer, which [`clear`](Writer::clear) empties for the next document: no memory is taken for each
/// node, and nothing is copied. What a group and its like hold is written by a closure.
///
/// ```
/// use yezhgulo::Writer;
///
/// fn list(w: &mut Writer, items: &[u32]) {
///     w.group(|w| {
///         w.text("[").nest(2, |w| {
///             w.line_().intersperse(items, |w| { w.text(",").line(); }, |w, item| { w.as_string(item); });
///         });
///         w.line_().text("]");
///     });
/// }
///
/// let mut w = Writer::new();
/// list(&mut w, &[1, 22, 333]);
/// assert_eq!(w.pretty(12)?, "[1, 22, 333]");
/// assert_eq!(w.pretty(11)?, "[\n  1,\n  22,\n  333\n]");
/// # Ok::<(), yezhgulo::Error>(())
/// ```
///
/// Where a closure panics, and the panic is caught, a document is left open: [`clear`](Writer::clear) the writer then.
/// Until then its layout is an [`Error::NotAProgram`](crate::Error::NotAProgram).
#[derive(Clone, Default)]
pub struct Writer {
    program: Vec<u8>,
}

/// A text that is being written. It is taken out again where it is dropped before it is finished.
struct Unfinished<'a> {
    program: &'a mut Vec<u8>,
    start: usize,
}

impl Unfinished<'_> {
    /// Writes the instruction of the text in front of it.
    fn finish(mut self) {
        let after = self.start + code::before_text(code::TEXT, 0).len();
        let instruction = code::before_text(code::TEXT, self.program.len() - after);
        self.program[self.start..after].copy_from_slice(&instruction);
        self.start = self.program.len();
    }
}

impl fmt::Write for Unfinished<'_> {
    fn write_str(&mut self, text: &str) -> fmt::Result {
        self.program.extend_from_slice(text.as_bytes());
        Ok(())
    }
}

impl Drop for Unfinished<'_> {
    fn drop(&mut self) {
        self.program.truncate(self.start);
    }
}

/// # The writer
impl Writer {
    /// A writer that has written nothing.
    ///
    /// ```
    /// use yezhgulo::Writer;
    ///
    /// assert_eq!(Writer::new().pretty(80)?, "");
    /// # Ok::<(), yezhgulo::Error>(())
    /// ```
    #[must_use]
    pub const fn new() -> Writer {
        Writer { program: Vec::new() }
    }

    /// Forgets what was written, and keeps the memory.
    ///
    /// ```
    /// use yezhgulo::Writer;
    ///
    /// let mut w = Writer::new();
    /// w.text("a").clear();
    /// w.text("b");
    /// assert_eq!(w.pretty(80)?, "b");
    /// # Ok::<(), yezhgulo::Error>(())
    /// ```
    pub fn clear(&mut self) {
        self.program.clear();
    }

    /// The program of what was written: one instruction for each node, after those of the documents below it.
    ///
    /// [`layout`](crate::layout) takes it.
    ///
    /// ```
    /// use yezhgulo::Writer;
    ///
    /// let mut w = Writer::new();
    /// w.group(|w| { w.line(); });
    /// assert_eq!(w.program(), [64, 6, 65, 32]);
    /// ```
    #[must_use]
    pub fn program(&self) -> &[u8] {
        &self.program
    }

    /// Writes a document that there is.
    ///
    /// ```
    /// use yezhgulo::{Doc, Writer};
    ///
    /// let mut w = Writer::new();
    /// w.doc(&Doc::text("x").parens()).text(";");
    /// assert_eq!(w.pretty(80)?, "(x);");
    /// # Ok::<(), yezhgulo::Error>(())
    /// ```
    pub fn doc(&mut self, doc: &Doc) -> &mut Writer {
        if doc.is_nil() {
            return self;
        }
        self.put(doc.program())
    }

    fn put(&mut self, instruction: &[u8]) -> &mut Writer {
        self.program.extend_from_slice(instruction);
        self
    }

    fn put_text(&mut self, code: u8, text: &str) -> &mut Writer {
        self.program.reserve(5 + text.len());
        self.put(&code::before_text(code, text.len())).put(text.as_bytes())
    }

    /// Writes what a closure writes, as one document.
    fn sequence(&mut self, content: impl FnOnce(&mut Writer)) -> &mut Writer {
        self.put(&[code::OPEN]);
        content(self);
        self.put(&[code::CLOSE])
    }

    /// Writes a document and an instruction that takes it, unless the document is nothing.
    fn wrapped(&mut self, content: impl FnOnce(&mut Writer), instruction: &[u8]) -> &mut Writer {
        let start = self.program.len();
        self.sequence(content);
        if self.program[start..] == [code::OPEN, code::CLOSE] {
            self.program.truncate(start);
            return self;
        }
        self.put(instruction)
    }

    /// Writes two documents.
    fn both(&mut self, first: impl FnOnce(&mut Writer), second: impl FnOnce(&mut Writer)) -> &mut Writer {
        self.sequence(first).sequence(second)
    }
}

/// # Nothing, texts and spaces
impl Writer {
    /// Writes nothing, as [`Doc::nil`] is. So does a text that is empty, and a group or a `nest` of nothing.
    ///
    /// ```
    /// # use yezhgulo::Writer;
    /// assert_eq!(Writer::new().nil().pretty(80)?, "");
    /// # Ok::<(), yezhgulo::Error>(())
    /// ```
    pub fn nil(&mut self) -> &mut Writer {
        self
    }

    /// Writes what cannot be laid out, as [`Doc::fail`].
    ///
    /// ```
    /// # use yezhgulo::Writer;
    /// assert!(Writer::new().fail().pretty(80).is_err());
    /// ```
    pub fn fail(&mut self) -> &mut Writer {
        self.put(&[code::FAIL])
    }

    /// Writes a text, as [`Doc::text`].
    ///
    /// # Panics
    ///
    /// Where the text has 2^32 bytes or more, here and in every other call that takes a text.
    ///
    /// ```
    /// # use yezhgulo::Writer;
    /// assert_eq!(Writer::new().text("a").text("b").pretty(80)?, "ab");
    /// # Ok::<(), yezhgulo::Error>(())
    /// ```
    pub fn text(&mut self, text: impl AsRef<str>) -> &mut Writer {
        match text.as_ref() {
            "" => self,
            text => self.put_text(code::TEXT, text),
        }
    }

    /// Writes a text that counts as one column a byte, as [`Doc::ascii_text`].
    ///
    /// ```
    /// # use yezhgulo::Writer;
    /// let mut w = Writer::new();
    /// w.group(|w| { w.ascii_text("é").line().text("b"); });
    /// assert_eq!(w.pretty(3)?, "é\nb");
    /// # Ok::<(), yezhgulo::Error>(())
    /// ```
    pub fn ascii_text(&mut self, text: impl AsRef<str>) -> &mut Writer {
        self.put_text(code::ASCII_TEXT, text.as_ref())
    }

    /// Writes a text that counts as `width` columns, as [`Doc::text_with_width`].
    ///
    /// ```
    /// # use yezhgulo::Writer;
    /// let mut w = Writer::new();
    /// w.group(|w| { w.text_with_width("wide", 1).line().text("b"); });
    /// assert_eq!(w.pretty(3)?, "wide b");
    /// # Ok::<(), yezhgulo::Error>(())
    /// ```
    pub fn text_with_width(&mut self, text: impl AsRef<str>, width: usize) -> &mut Writer {
        let text = text.as_ref();
        let length = code::length(text.len());
        self.put(&code::with_number(code::TEXT_WITH_WIDTH, width as u64))
            .put(&length)
            .put(text.as_bytes())
    }

    /// Writes what `{}` shows of a value, as [`Doc::as_string`].
    ///
    /// # Panics
    ///
    /// Where the value's `Display` answers an error, as `to_string` does. Nothing is written then.
    ///
    /// ```
    /// # use yezhgulo::Writer;
    /// assert_eq!(Writer::new().as_string(42).pretty(80)?, "42");
    /// # Ok::<(), yezhgulo::Error>(())
    /// ```
    pub fn as_string(&mut self, value: impl fmt::Display) -> &mut Writer {
        let start = self.program.len();
        self.put(&code::before_text(code::TEXT, 0));
        let program = &mut self.program;
        let mut text = Unfinished { program, start };
        write!(text, "{value}").expect("a Display of a value answers no error");
        text.finish();
        self
    }

    /// Writes a text that may have several lines, as [`Doc::multiline_text`].
    ///
    /// ```
    /// # use yezhgulo::Writer;
    /// let mut w = Writer::new();
    /// w.nest(2, |w| { w.hard_line().multiline_text("'one\ntwo'"); });
    /// assert_eq!(w.pretty(80)?, "\n  'one\ntwo'");
    /// # Ok::<(), yezhgulo::Error>(())
    /// ```
    pub fn multiline_text(&mut self, text: impl AsRef<str>) -> &mut Writer {
        match text.as_ref() {
            "" => self,
            text => self.put_text(code::of_lines(text), text),
        }
    }

    /// Writes one space.
    ///
    /// ```
    /// # use yezhgulo::Writer;
    /// assert_eq!(Writer::new().text("a").space().text("b").pretty(0)?, "a b");
    /// # Ok::<(), yezhgulo::Error>(())
    /// ```
    pub fn space(&mut self) -> &mut Writer {
        self.text(" ")
    }

    /// Writes so many spaces.
    ///
    /// ```
    /// # use yezhgulo::Writer;
    /// assert_eq!(Writer::new().spaces(3).pretty(0)?, "   ");
    /// # Ok::<(), yezhgulo::Error>(())
    /// ```
    pub fn spaces(&mut self, count: usize) -> &mut Writer {
        if count > 0 {
            self.put(&code::before_text(code::TEXT, count));
            self.program.resize(self.program.len() + count, b' ');
        }
        self
    }

    /// Writes a space that is nothing at the beginning and at the end of a line, as [`Doc::weak_space`].
    ///
    /// ```
    /// # use yezhgulo::Writer;
    /// assert_eq!(Writer::new().text("a").weak_space().text("b;").weak_space().pretty(80)?, "a b;");
    /// # Ok::<(), yezhgulo::Error>(())
    /// ```
    pub fn weak_space(&mut self) -> &mut Writer {
        self.put(&[code::WEAK_SPACE])
    }
}

/// # Lines
impl Writer {
    /// Writes a line break, as [`Doc::hard_line`].
    ///
    /// ```
    /// # use yezhgulo::Writer;
    /// assert_eq!(Writer::new().text("a").hard_line().text("b").pretty(80)?, "a\nb");
    /// # Ok::<(), yezhgulo::Error>(())
    /// ```
    pub fn hard_line(&mut self) -> &mut Writer {
        self.put(&[code::HARD_LINE])
    }

    /// Writes a line break that is nothing at the beginning of a line, as [`Doc::weak_line`].
    ///
    /// ```
    /// # use yezhgulo::Writer;
    /// assert_eq!(Writer::new().text("a").hard_line().weak_line().text("b").pretty(80)?, "a\nb");
    /// # Ok::<(), yezhgulo::Error>(())
    /// ```
    pub fn weak_line(&mut self) -> &mut Writer {
        self.put(&[code::WEAK_LINE])
    }

    /// Writes a line break, or one space where its group is flat, as [`Doc::line`].
    ///
    /// ```
    /// # use yezhgulo::Writer;
    /// let mut w = Writer::new();
    /// w.group(|w| { w.text("a").line().text("b"); });
    /// assert_eq!((w.pretty(3)?, w.pretty(2)?), ("a b".to_string(), "a\nb".to_string()));
    /// # Ok::<(), yezhgulo::Error>(())
    /// ```
    pub fn line(&mut self) -> &mut Writer {
        self.put(&[code::LINE])
    }

    /// Writes a line break, or nothing where its group is flat, as [`Doc::line_`].
    ///
    /// ```
    /// # use yezhgulo::Writer;
    /// let mut w = Writer::new();
    /// w.group(|w| { w.text("a").line_().text("b"); });
    /// assert_eq!((w.pretty(2)?, w.pretty(1)?), ("ab".to_string(), "a\nb".to_string()));
    /// # Ok::<(), yezhgulo::Error>(())
    /// ```
    pub fn line_(&mut self) -> &mut Writer {
        self.put(&[code::LINE_OR_NIL])
    }

    /// Writes a space, or a line break where what follows does not fit, as [`Doc::softline`].
    ///
    /// ```
    /// # use yezhgulo::Writer;
    /// assert_eq!(Writer::new().text("a").softline().text("b").pretty(3)?, "a b");
    /// # Ok::<(), yezhgulo::Error>(())
    /// ```
    pub fn softline(&mut self) -> &mut Writer {
        self.put(&[code::LINE, code::GROUP])
    }

    /// Writes nothing, or a line break where what follows does not fit, as [`Doc::softline_`].
    ///
    /// ```
    /// # use yezhgulo::Writer;
    /// assert_eq!(Writer::new().text("a").softline_().text("b").pretty(1)?, "a\nb");
    /// # Ok::<(), yezhgulo::Error>(())
    /// ```
    pub fn softline_(&mut self) -> &mut Writer {
        self.put(&[code::LINE_OR_NIL, code::GROUP])
    }

    /// Writes nothing, but each group around it is broken, as [`Doc::expand_parent`].
    ///
    /// ```
    /// # use yezhgulo::Writer;
    /// let mut w = Writer::new();
    /// w.group(|w| { w.text("a").line().text("b").expand_parent(); });
    /// assert_eq!(w.pretty(80)?, "a\nb");
    /// # Ok::<(), yezhgulo::Error>(())
    /// ```
    pub fn expand_parent(&mut self) -> &mut Writer {
        self.put(&[code::EXPAND_PARENT])
    }

    /// Writes the text with a [`softline`](Writer::softline) in place of each whitespace character, as [`Doc::reflow`].
    ///
    /// ```
    /// # use yezhgulo::Writer;
    /// assert_eq!(Writer::new().reflow("aa bb cc").pretty(7)?, "aa bb\ncc");
    /// # Ok::<(), yezhgulo::Error>(())
    /// ```
    pub fn reflow(&mut self, text: impl AsRef<str>) -> &mut Writer {
        let words = text.as_ref().split(char::is_whitespace);
        self.intersperse(
            words,
            |w| {
                w.softline();
            },
            |w, word| {
                w.text(word);
            },
        )
    }

    /// Writes each item of an iterator, with a separator in each gap. All of it is one document.
    ///
    /// ```
    /// # use yezhgulo::Writer;
    /// let mut w = Writer::new();
    /// w.intersperse(1..=3, |w| { w.text(", "); }, |w, item| { w.as_string(item); });
    /// assert_eq!(w.pretty(80)?, "1, 2, 3");
    /// # Ok::<(), yezhgulo::Error>(())
    /// ```
    pub fn intersperse<I: IntoIterator>(
        &mut self,
        items: I,
        mut separator: impl FnMut(&mut Writer),
        mut write: impl FnMut(&mut Writer, I::Item),
    ) -> &mut Writer {
        let all = |w: &mut Writer| {
            let mut items = items.into_iter();
            if let Some(first) = items.next() {
                write(w, first);
            }
            for item in items {
                separator(w);
                write(w, item);
            }
        };
        // A sequence, though no instruction takes it: a panic in a closure leaves it open.
        self.wrapped(all, &[])
    }
}

/// # Groups, indents and suffixes
impl Writer {
    /// Writes a group, as [`Doc::group`].
    ///
    /// ```
    /// # use yezhgulo::Writer;
    /// let mut w = Writer::new();
    /// w.group(|w| { w.text("a").line().text("b"); }).text(";");
    /// assert_eq!((w.pretty(4)?, w.pretty(3)?), ("a b;".to_string(), "a\nb;".to_string()));
    /// # Ok::<(), yezhgulo::Error>(())
    /// ```
    pub fn group(&mut self, content: impl FnOnce(&mut Writer)) -> &mut Writer {
        self.wrapped(content, &[code::GROUP])
    }

    /// Writes what is laid flat at every width, as [`Doc::flatten`].
    ///
    /// ```
    /// # use yezhgulo::Writer;
    /// let mut w = Writer::new();
    /// w.flatten(|w| { w.text("a").line().text("b"); });
    /// assert_eq!(w.pretty(0)?, "a b");
    /// # Ok::<(), yezhgulo::Error>(())
    /// ```
    pub fn flatten(&mut self, content: impl FnOnce(&mut Writer)) -> &mut Writer {
        self.wrapped(content, &[code::FLATTEN])
    }

    /// Writes lines that are so many columns further in, as [`Doc::nest`].
    ///
    /// ```
    /// # use yezhgulo::Writer;
    /// let mut w = Writer::new();
    /// w.nest(4, |w| { w.hard_line().text("b").nest(-2, |w| { w.hard_line().text("c"); }); });
    /// assert_eq!(w.pretty(80)?, "\n    b\n  c");
    /// # Ok::<(), yezhgulo::Error>(())
    /// ```
    pub fn nest(&mut self, columns: isize, content: impl FnOnce(&mut Writer)) -> &mut Writer {
        self.wrapped(content, &code::with_number(code::NEST, code::offset(columns)))
    }

    /// [`nest`](Writer::nest) to the right.
    ///
    /// # Panics
    ///
    /// Where `columns` is more than `isize::MAX`. Nothing is written then.
    ///
    /// ```
    /// # use yezhgulo::Writer;
    /// let mut w = Writer::new();
    /// w.indent(2, |w| { w.hard_line().text("a"); });
    /// assert_eq!(w.pretty(80)?, "\n  a");
    /// # Ok::<(), yezhgulo::Error>(())
    /// ```
    pub fn indent(&mut self, columns: usize, content: impl FnOnce(&mut Writer)) -> &mut Writer {
        self.nest(code::to_the_right(columns), content)
    }

    /// [`nest`](Writer::nest) to the left.
    ///
    /// # Panics
    ///
    /// Where `columns` is more than `isize::MAX`. Nothing is written then.
    ///
    /// ```
    /// # use yezhgulo::Writer;
    /// let mut w = Writer::new();
    /// w.indent(4, |w| { w.dedent(3, |w| { w.hard_line().text("a"); }); });
    /// assert_eq!(w.pretty(80)?, "\n a");
    /// # Ok::<(), yezhgulo::Error>(())
    /// ```
    pub fn dedent(&mut self, columns: usize, content: impl FnOnce(&mut Writer)) -> &mut Writer {
        self.nest(-code::to_the_right(columns), content)
    }

    /// Writes lines that have no indent, as [`Doc::dedent_to_root`].
    ///
    /// ```
    /// # use yezhgulo::Writer;
    /// let mut w = Writer::new();
    /// w.indent(4, |w| { w.dedent_to_root(|w| { w.hard_line().text("#if"); }); });
    /// assert_eq!(w.pretty(80)?, "\n#if");
    /// # Ok::<(), yezhgulo::Error>(())
    /// ```
    pub fn dedent_to_root(&mut self, content: impl FnOnce(&mut Writer)) -> &mut Writer {
        self.wrapped(content, &[code::DEDENT_TO_ROOT])
    }

    /// Writes lines that begin in the column where the first of them starts, as [`Doc::align`].
    ///
    /// ```
    /// # use yezhgulo::Writer;
    /// let mut w = Writer::new();
    /// w.text("sum = ").align(|w| { w.text("one").line().text("+ two"); });
    /// assert_eq!(w.pretty(80)?, "sum = one\n      + two");
    /// # Ok::<(), yezhgulo::Error>(())
    /// ```
    pub fn align(&mut self, content: impl FnOnce(&mut Writer)) -> &mut Writer {
        self.wrapped(content, &[code::ALIGN])
    }

    /// Writes what waits for the end of its line, as [`Doc::line_suffix`].
    ///
    /// ```
    /// # use yezhgulo::Writer;
    /// let mut w = Writer::new();
    /// w.line_suffix(|w| { w.text(" // why"); }).text("a;");
    /// assert_eq!(w.pretty(80)?, "a; // why");
    /// # Ok::<(), yezhgulo::Error>(())
    /// ```
    pub fn line_suffix(&mut self, content: impl FnOnce(&mut Writer)) -> &mut Writer {
        self.sequence(content).put(&[code::LINE_SUFFIX])
    }
}

/// # Alternatives
impl Writer {
    /// Writes the first document for broken lines, and the second for flat ones, as [`Doc::flat_alt`].
    ///
    /// ```
    /// # use yezhgulo::Writer;
    /// let mut w = Writer::new();
    /// w.group(|w| { w.text("a").flat_alt(|w| { w.line(); }, |w| { w.text(","); }).text("b"); });
    /// assert_eq!((w.pretty(3)?, w.pretty(2)?), ("a,b".to_string(), "a\nb".to_string()));
    /// # Ok::<(), yezhgulo::Error>(())
    /// ```
    pub fn flat_alt(&mut self, broken: impl FnOnce(&mut Writer), flat: impl FnOnce(&mut Writer)) -> &mut Writer {
        self.both(broken, flat).put(&[code::FLAT_ALT])
    }

    /// Writes a document for flat lines alone, as [`Doc::if_group_flat`].
    ///
    /// ```
    /// # use yezhgulo::Writer;
    /// let mut w = Writer::new();
    /// w.group(|w| { w.text("a").line().text("b").if_group_flat(|w| { w.text(";"); }); });
    /// assert_eq!((w.pretty(4)?, w.pretty(3)?), ("a b;".to_string(), "a\nb".to_string()));
    /// # Ok::<(), yezhgulo::Error>(())
    /// ```
    pub fn if_group_flat(&mut self, content: impl FnOnce(&mut Writer)) -> &mut Writer {
        self.put(&[code::NIL]).sequence(content).put(&[code::FLAT_ALT])
    }

    /// Writes a document for broken lines alone, as [`Doc::if_group_break`].
    ///
    /// ```
    /// # use yezhgulo::Writer;
    /// let mut w = Writer::new();
    /// w.group(|w| { w.text("a,").line().text("b").if_group_break(|w| { w.text(","); }); });
    /// assert_eq!((w.pretty(4)?, w.pretty(3)?), ("a, b".to_string(), "a,\nb,".to_string()));
    /// # Ok::<(), yezhgulo::Error>(())
    /// ```
    pub fn if_group_break(&mut self, content: impl FnOnce(&mut Writer)) -> &mut Writer {
        self.sequence(content).put(&[code::NIL, code::FLAT_ALT])
    }

    /// Writes a document, and another that is laid where the first does not fit, as [`Doc::union`].
    ///
    /// ```
    /// # use yezhgulo::Writer;
    /// let mut w = Writer::new();
    /// w.union(|w| { w.text("long"); }, |w| { w.text("b"); });
    /// assert_eq!((w.pretty(4)?, w.pretty(3)?), ("long".to_string(), "b".to_string()));
    /// # Ok::<(), yezhgulo::Error>(())
    /// ```
    pub fn union(&mut self, first: impl FnOnce(&mut Writer), second: impl FnOnce(&mut Writer)) -> &mut Writer {
        self.both(first, second).put(&[code::UNION])
    }

    /// The same, by the first line of the first document alone, as [`Doc::partial_union`].
    ///
    /// ```
    /// # use yezhgulo::Writer;
    /// let mut w = Writer::new();
    /// w.partial_union(|w| { w.text("a").hard_line().text("long"); }, |w| { w.text("b"); });
    /// assert_eq!((w.pretty(1)?, w.pretty(0)?), ("a\nlong".to_string(), "b".to_string()));
    /// # Ok::<(), yezhgulo::Error>(())
    /// ```
    pub fn partial_union(&mut self, first: impl FnOnce(&mut Writer), second: impl FnOnce(&mut Writer)) -> &mut Writer {
        self.both(first, second).put(&[code::PARTIAL_UNION])
    }

    /// Writes two documents, of which the test of the column takes one, as [`Doc::if_column`].
    ///
    /// ```
    /// # use yezhgulo::{ColumnTest, Writer};
    /// let mut w = Writer::new();
    /// w.text("ab").if_column(ColumnTest::AtMost(1), |w| { w.text("near"); }, |w| { w.text("far"); });
    /// assert_eq!(w.pretty(80)?, "abfar");
    /// # Ok::<(), yezhgulo::Error>(())
    /// ```
    pub fn if_column(
        &mut self,
        test: ColumnTest,
        yes: impl FnOnce(&mut Writer),
        no: impl FnOnce(&mut Writer),
    ) -> &mut Writer {
        let after = self.both(yes, no);
        test.with_instruction(|instruction| after.put(instruction))
    }

    /// Writes two documents, of which the test of the indent takes one, as [`Doc::if_nesting`].
    ///
    /// ```
    /// # use yezhgulo::{NestingTest, Writer};
    /// let mut w = Writer::new();
    /// w.if_nesting(NestingTest::AtMost(0), |w| { w.text("outside"); }, |w| { w.text("inside"); });
    /// assert_eq!(w.pretty(80)?, "outside");
    /// # Ok::<(), yezhgulo::Error>(())
    /// ```
    pub fn if_nesting(
        &mut self,
        test: NestingTest,
        yes: impl FnOnce(&mut Writer),
        no: impl FnOnce(&mut Writer),
    ) -> &mut Writer {
        self.both(yes, no).put(&test.instruction())
    }
}

/// Shows the program, an instruction at a time.
impl fmt::Debug for Writer {
    fn fmt(&self, f: &mut fmt::Formatter<'_>) -> fmt::Result {
        write!(f, "Writer{:?}", Listing(self.program()))
    }
}
