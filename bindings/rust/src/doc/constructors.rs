//! The documents that begin a document.

use super::Doc;
use crate::bytes::Bytes;
use crate::choice::{ColumnTest, NestingTest};
use crate::code;
use std::fmt;

/// A document that is a text, after what comes before its length.
fn text_after(code: u8, width: &[u8], text: &str) -> Doc {
    let mut program = Bytes::new();
    program.push_back(&[code]);
    program.push_back(width);
    program.push_back(&code::length(text.len()));
    program.push_back(text.as_bytes());
    Doc { program, root: code }
}

/// # Nothing, texts and spaces
impl Doc {
    /// Nothing.
    ///
    /// ```
    /// use yezhgulo::Doc;
    ///
    /// assert_eq!(Doc::nil().pretty(80)?, "");
    /// # Ok::<(), yezhgulo::Error>(())
    /// ```
    pub fn nil() -> Doc {
        Doc::leaf(code::NIL)
    }

    /// A document that cannot be laid out.
    ///
    /// A [`union`](Doc::union) whose first document comes to it takes its second one. A group that would come to it
    /// where it is flat is broken. Anywhere else the layout is [`Error::Fails`](crate::Error::Fails).
    ///
    /// ```
    /// use yezhgulo::Doc;
    ///
    /// assert!(Doc::fail().pretty(80).is_err());
    /// assert_eq!(Doc::fail().union("b").pretty(80)?, "b");
    /// # Ok::<(), yezhgulo::Error>(())
    /// ```
    pub fn fail() -> Doc {
        Doc::leaf(code::FAIL)
    }

    /// A text, which is never broken. An empty text is nothing.
    ///
    /// It counts as its display width: an ASCII text as one column a byte, any other by the width of its characters.
    /// A text with a line end in it counts as one line: use [`multiline_text`](Doc::multiline_text) for such texts.
    ///
    /// # Panics
    ///
    /// Where the text has 2^32 bytes or more, here and in every other call that takes a text.
    ///
    /// ```
    /// use yezhgulo::Doc;
    ///
    /// let row = (Doc::text("42") + Doc::line() + "你好").group();
    /// assert_eq!(row.pretty(7)?, "42 你好");
    /// assert_eq!(row.pretty(6)?, "42\n你好");
    /// # Ok::<(), yezhgulo::Error>(())
    /// ```
    pub fn text(text: impl AsRef<str>) -> Doc {
        match text.as_ref() {
            "" => Doc::nil(),
            text => text_after(code::TEXT, &[], text),
        }
    }

    /// A text that counts as one column a byte, whatever its characters are. An empty one remains a text, which shows
    /// nothing.
    ///
    /// ```
    /// use yezhgulo::Doc;
    ///
    /// let row = (Doc::ascii_text("é") + Doc::line() + "b").group();
    /// assert_eq!(row.pretty(4)?, "é b");
    /// assert_eq!(row.pretty(3)?, "é\nb");
    /// # Ok::<(), yezhgulo::Error>(())
    /// ```
    pub fn ascii_text(text: impl AsRef<str>) -> Doc {
        text_after(code::ASCII_TEXT, &[], text.as_ref())
    }

    /// A text that counts as `width` columns. An empty one remains a text, which shows nothing and counts as no column.
    ///
    /// ```
    /// use yezhgulo::Doc;
    ///
    /// let row = (Doc::text_with_width("\u{1b}[1mbold\u{1b}[0m", 4) + Doc::line() + "b").group();
    /// assert_eq!(row.pretty(6)?, "\u{1b}[1mbold\u{1b}[0m b");
    /// # Ok::<(), yezhgulo::Error>(())
    /// ```
    pub fn text_with_width(text: impl AsRef<str>, width: usize) -> Doc {
        text_after(code::TEXT_WITH_WIDTH, &(width as u64).to_le_bytes(), text.as_ref())
    }

    /// What `{}` shows of a value, counted as a [`text`](Doc::text) is. An empty one remains a text, which shows
    /// nothing.
    ///
    /// # Panics
    ///
    /// Where the value's `Display` answers an error, as `to_string` does.
    ///
    /// ```
    /// use yezhgulo::Doc;
    ///
    /// assert_eq!(Doc::as_string(42).pretty(80)?, "42");
    /// # Ok::<(), yezhgulo::Error>(())
    /// ```
    pub fn as_string(value: impl fmt::Display) -> Doc {
        text_after(code::TEXT, &[], &value.to_string())
    }

    /// A text that may have several lines. Where it has a line end it is a payload: its bytes are written as they are,
    /// so it gets no indent inside and keeps its line ends, and a group that shows it is broken. Else it is a
    /// [`text`](Doc::text).
    ///
    /// ```
    /// use yezhgulo::Doc;
    ///
    /// let binding = (Doc::text("s =") + (Doc::line() + Doc::multiline_text("'one\ntwo'")).nest(2)).group();
    /// assert_eq!(binding.pretty(80)?, "s =\n  'one\ntwo'");
    /// # Ok::<(), yezhgulo::Error>(())
    /// ```
    pub fn multiline_text(text: impl AsRef<str>) -> Doc {
        match text.as_ref() {
            "" => Doc::nil(),
            text => text_after(code::of_lines(text), &[], text),
        }
    }

    /// One space.
    ///
    /// ```
    /// use yezhgulo::Doc;
    ///
    /// assert_eq!((Doc::text("a") + Doc::space() + "b").pretty(0)?, "a b");
    /// # Ok::<(), yezhgulo::Error>(())
    /// ```
    pub fn space() -> Doc {
        Doc::text(" ")
    }

    /// So many spaces.
    ///
    /// ```
    /// use yezhgulo::Doc;
    ///
    /// assert_eq!((Doc::text("a") + Doc::spaces(3) + "b").pretty(0)?, "a   b");
    /// assert!(Doc::spaces(0).is_nil());
    /// # Ok::<(), yezhgulo::Error>(())
    /// ```
    pub fn spaces(count: usize) -> Doc {
        Doc::text(" ".repeat(count))
    }

    /// A space that is nothing at the beginning and at the end of a line.
    ///
    /// ```
    /// use yezhgulo::Doc;
    ///
    /// let statement = Doc::text("a") + Doc::weak_space() + "b;" + Doc::weak_space();
    /// assert_eq!(statement.pretty(80)?, "a b;");
    /// # Ok::<(), yezhgulo::Error>(())
    /// ```
    pub fn weak_space() -> Doc {
        Doc::leaf(code::WEAK_SPACE)
    }
}

/// # Lines
impl Doc {
    /// A line break at every width. A group that shows it is broken.
    ///
    /// ```
    /// use yezhgulo::Doc;
    ///
    /// assert_eq!((Doc::text("a") + Doc::hard_line() + "b").group().pretty(80)?, "a\nb");
    /// # Ok::<(), yezhgulo::Error>(())
    /// ```
    pub fn hard_line() -> Doc {
        Doc::leaf(code::HARD_LINE)
    }

    /// A line break. At the beginning of a line it is nothing, unless a suffix is pending there.
    ///
    /// ```
    /// use yezhgulo::Doc;
    ///
    /// let lines = Doc::text("b;") + Doc::hard_line() + Doc::weak_line() + "c;";
    /// assert_eq!(lines.pretty(80)?, "b;\nc;");
    /// # Ok::<(), yezhgulo::Error>(())
    /// ```
    pub fn weak_line() -> Doc {
        Doc::leaf(code::WEAK_LINE)
    }

    /// A line break, or one space where its group is flat. Outside of all groups every line is broken.
    ///
    /// ```
    /// use yezhgulo::Doc;
    ///
    /// let pair = (Doc::text("first") + Doc::line() + "second").group();
    /// assert_eq!(pair.pretty(12)?, "first second");
    /// assert_eq!(pair.pretty(11)?, "first\nsecond");
    /// # Ok::<(), yezhgulo::Error>(())
    /// ```
    pub fn line() -> Doc {
        Doc::leaf(code::LINE)
    }

    /// A line break, or nothing where its group is flat.
    ///
    /// ```
    /// use yezhgulo::Doc;
    ///
    /// let pair = (Doc::text("a") + Doc::line_() + "b").group();
    /// assert_eq!(pair.pretty(2)?, "ab");
    /// assert_eq!(pair.pretty(1)?, "a\nb");
    /// # Ok::<(), yezhgulo::Error>(())
    /// ```
    pub fn line_() -> Doc {
        Doc::leaf(code::LINE_OR_NIL)
    }

    /// A space, or a line break where what follows does not fit up to the next possible break: a group of one
    /// [`line`](Doc::line).
    ///
    /// ```
    /// use yezhgulo::Doc;
    ///
    /// let words = Doc::text("aa") + Doc::softline() + "bb" + Doc::softline() + "cc";
    /// assert_eq!(words.pretty(7)?, "aa bb\ncc");
    /// # Ok::<(), yezhgulo::Error>(())
    /// ```
    pub fn softline() -> Doc {
        Doc::line().group()
    }

    /// Nothing, or a line break where what follows does not fit up to the next possible break: a group of one
    /// [`line_`](Doc::line_).
    ///
    /// ```
    /// use yezhgulo::Doc;
    ///
    /// let rule = (Doc::text("=") + Doc::softline_()).repeat(3);
    /// assert_eq!(rule.pretty(2)?, "==\n=");
    /// # Ok::<(), yezhgulo::Error>(())
    /// ```
    pub fn softline_() -> Doc {
        Doc::line_().group()
    }

    /// Nothing, but each group around it is broken.
    ///
    /// ```
    /// use yezhgulo::Doc;
    ///
    /// let pair = (Doc::text("a") + Doc::line() + "b" + Doc::expand_parent()).group();
    /// assert_eq!(pair.pretty(80)?, "a\nb");
    /// # Ok::<(), yezhgulo::Error>(())
    /// ```
    pub fn expand_parent() -> Doc {
        Doc::leaf(code::EXPAND_PARENT)
    }
}

/// # Several documents
impl Doc {
    /// The documents, one after the other.
    ///
    /// ```
    /// use yezhgulo::Doc;
    ///
    /// assert_eq!(Doc::concat(["a", "b", "c"]).pretty(80)?, "abc");
    /// # Ok::<(), yezhgulo::Error>(())
    /// ```
    pub fn concat<I>(docs: I) -> Doc
    where
        I: IntoIterator,
        I::Item: Into<Doc>,
    {
        docs.into_iter().fold(Doc::nil(), Doc::append)
    }

    /// The documents, one after the other, with a separator in each gap.
    ///
    /// ```
    /// use yezhgulo::Doc;
    ///
    /// let items = Doc::intersperse(["1", "2", "3"], Doc::line()).group();
    /// assert_eq!(items.pretty(5)?, "1 2 3");
    /// assert_eq!(items.pretty(4)?, "1\n2\n3");
    /// # Ok::<(), yezhgulo::Error>(())
    /// ```
    pub fn intersperse<I>(docs: I, separator: impl Into<Doc>) -> Doc
    where
        I: IntoIterator,
        I::Item: Into<Doc>,
    {
        let separator = separator.into();
        let mut docs = docs.into_iter();
        let first = docs.next().map_or_else(Doc::nil, Into::into);
        docs.fold(first, |before, doc| before.append(separator.clone()).append(doc))
    }

    /// The documents, each but the last with a mark after it, such as a comma: for [`bracketed`](Doc::bracketed).
    ///
    /// ```
    /// use yezhgulo::Doc;
    ///
    /// let items = Doc::intersperse(Doc::punctuated(["1", "2"], ","), Doc::line());
    /// assert_eq!(items.pretty(80)?, "1,\n2");
    /// # Ok::<(), yezhgulo::Error>(())
    /// ```
    #[must_use]
    pub fn punctuated<I>(docs: I, mark: impl Into<Doc>) -> Vec<Doc>
    where
        I: IntoIterator,
        I::Item: Into<Doc>,
    {
        let mark = mark.into();
        let mut docs: Vec<Doc> = docs.into_iter().map(Into::into).collect();
        if let Some((_, all_but_last)) = docs.split_last_mut() {
            for doc in all_but_last {
                *doc += &mark;
            }
        }
        docs
    }

    /// The documents between two others: a group, flat with one space between two of them, or each on a line of its own,
    /// further in by so many columns. Where there are none, the two stand side by side.
    ///
    /// ```
    /// use yezhgulo::Doc;
    ///
    /// let list = Doc::bracketed("[", Doc::punctuated(["1", "22"], ","), "]", 2);
    /// assert_eq!(list.pretty(7)?, "[1, 22]");
    /// assert_eq!(list.pretty(6)?, "[\n  1,\n  22\n]");
    /// assert_eq!(Doc::bracketed("[", [""; 0], "]", 2).pretty(0)?, "[]");
    /// # Ok::<(), yezhgulo::Error>(())
    /// ```
    pub fn bracketed<I>(before: impl Into<Doc>, docs: I, after: impl Into<Doc>, indent: isize) -> Doc
    where
        I: IntoIterator,
        I::Item: Into<Doc>,
    {
        let mut docs = docs.into_iter().peekable();
        if docs.peek().is_none() {
            return before.into().append(after);
        }
        let inside = (Doc::line_() + Doc::intersperse(docs, Doc::line())).nest(indent) + Doc::line_();
        inside.enclose(before, after).group()
    }

    /// The text with a [`softline`](Doc::softline) in place of each whitespace character.
    ///
    /// ```
    /// use yezhgulo::Doc;
    ///
    /// let words = Doc::reflow("aa bb cc");
    /// assert_eq!(words.pretty(7)?, "aa bb\ncc");
    /// assert_eq!(words.pretty(4)?, "aa\nbb\ncc");
    /// # Ok::<(), yezhgulo::Error>(())
    /// ```
    pub fn reflow(text: impl AsRef<str>) -> Doc {
        Doc::intersperse(text.as_ref().split(char::is_whitespace), Doc::softline())
    }
}

/// # Alternatives and suffixes
impl Doc {
    /// A suffix: the document waits for the end of its line, and is laid there. It does not count for what fits. A
    /// suffix of nothing waits too, so a weak space before it is written.
    ///
    /// ```
    /// use yezhgulo::Doc;
    ///
    /// let pair = (Doc::text("a") + Doc::line_suffix(" // why") + "," + Doc::line() + "b").group();
    /// assert_eq!(pair.pretty(4)?, "a, b // why");
    /// assert_eq!(pair.pretty(3)?, "a, // why\nb");
    /// # Ok::<(), yezhgulo::Error>(())
    /// ```
    pub fn line_suffix(doc: impl Into<Doc>) -> Doc {
        doc.into().then(&[code::LINE_SUFFIX])
    }

    /// The document where the group around it is flat, else nothing.
    ///
    /// ```
    /// use yezhgulo::Doc;
    ///
    /// let pair = (Doc::text("a") + Doc::line() + "b" + Doc::if_group_flat(";")).group();
    /// assert_eq!(pair.pretty(4)?, "a b;");
    /// assert_eq!(pair.pretty(3)?, "a\nb");
    /// # Ok::<(), yezhgulo::Error>(())
    /// ```
    pub fn if_group_flat(doc: impl Into<Doc>) -> Doc {
        Doc::nil().flat_alt(doc)
    }

    /// The document where the group around it is broken, else nothing: a trailing comma, say.
    ///
    /// ```
    /// use yezhgulo::Doc;
    ///
    /// let pair = (Doc::text("a,") + Doc::line() + "b" + Doc::if_group_break(",")).group();
    /// assert_eq!(pair.pretty(4)?, "a, b");
    /// assert_eq!(pair.pretty(3)?, "a,\nb,");
    /// # Ok::<(), yezhgulo::Error>(())
    /// ```
    pub fn if_group_break(doc: impl Into<Doc>) -> Doc {
        doc.into().flat_alt(Doc::nil())
    }

    /// `yes` where the test of the column holds in which it would start, else `no`. The test is the same in broken
    /// lines and in flat ones.
    ///
    /// ```
    /// use yezhgulo::{ColumnTest, Doc};
    ///
    /// let value = Doc::if_column(ColumnTest::IsNesting, "  f(x)", "f(x)");
    /// let binding = Doc::text("let y =") + Doc::softline() + value;
    /// assert_eq!(binding.pretty(12)?, "let y = f(x)");
    /// assert_eq!(binding.pretty(11)?, "let y =\n  f(x)");
    /// # Ok::<(), yezhgulo::Error>(())
    /// ```
    pub fn if_column(test: ColumnTest, yes: impl Into<Doc>, no: impl Into<Doc>) -> Doc {
        let (yes, no) = (yes.into(), no.into());
        test.with_instruction(|instruction| yes.with(no, instruction))
    }

    /// `yes` where the test of the indent holds, else `no`.
    ///
    /// ```
    /// use yezhgulo::{Doc, NestingTest};
    ///
    /// let mark = || Doc::if_nesting(NestingTest::AtLeast(2), "inside", "outside");
    /// assert_eq!(mark().pretty(80)?, "outside");
    /// assert_eq!(mark().nest(2).pretty(80)?, "inside");
    /// # Ok::<(), yezhgulo::Error>(())
    /// ```
    pub fn if_nesting(test: NestingTest, yes: impl Into<Doc>, no: impl Into<Doc>) -> Doc {
        yes.into().with(no.into(), &test.instruction())
    }
}
