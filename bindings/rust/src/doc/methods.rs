//! The documents that are made of a document.

use super::Doc;
use crate::code;

/// What a [`group`](Doc::group) is not put around, since it would change nothing.
const NOT_GROUPED: [u8; 6] = [
    code::NIL,
    code::TEXT,
    code::ASCII_TEXT,
    code::TEXT_WITH_WIDTH,
    code::MULTILINE_TEXT,
    code::GROUP,
];

/// What a [`flatten`](Doc::flatten) is not put around.
const NOT_FLATTENED: [u8; 5] = [
    code::NIL,
    code::TEXT,
    code::ASCII_TEXT,
    code::TEXT_WITH_WIDTH,
    code::FLATTEN,
];

/// # Groups and alternatives
impl Doc {
    /// This document, and then the other. Where one of them is [nothing](Doc::is_nil), it is the other as it is.
    ///
    /// ```
    /// use yezhgulo::Doc;
    ///
    /// assert_eq!(Doc::text("a").append("b").append(Doc::nil()).pretty(80)?, "ab");
    /// # Ok::<(), yezhgulo::Error>(())
    /// ```
    pub fn append(self, after: impl Into<Doc>) -> Doc {
        let after = after.into();
        if self.is_nil() {
            after
        } else if after.is_nil() {
            self
        } else {
            self.with(after, &[code::APPEND])
        }
    }

    /// A group: all its lines are flat where it fits on its line, up to the first possible break after it, and broken
    /// otherwise. The groups in a broken one are each decided for themselves.
    ///
    /// ```
    /// use yezhgulo::Doc;
    ///
    /// let pair = (Doc::text("a") + Doc::line() + "b").group() + ";";
    /// assert_eq!(pair.pretty(4)?, "a b;");
    /// assert_eq!(pair.pretty(3)?, "a\nb;");
    /// # Ok::<(), yezhgulo::Error>(())
    /// ```
    pub fn group(self) -> Doc {
        self.then_unless(code::GROUP, &NOT_GROUPED)
    }

    /// The document laid flat at every width. A hard line or a payload in it fails.
    ///
    /// ```
    /// use yezhgulo::Doc;
    ///
    /// assert_eq!((Doc::text("a") + Doc::line() + "b").flatten().pretty(1)?, "a b");
    /// # Ok::<(), yezhgulo::Error>(())
    /// ```
    pub fn flatten(self) -> Doc {
        match self.root {
            code::HARD_LINE | code::MULTILINE_TEXT => Doc::fail(),
            _ => self.then_unless(code::FLATTEN, &NOT_FLATTENED),
        }
    }

    /// This document in broken lines, and the other in flat ones.
    ///
    /// ```
    /// use yezhgulo::Doc;
    ///
    /// let comma = || Doc::text(",").flat_alt("");
    /// let call = |body| (Doc::text("f(") + Doc::line_() + body + comma() + Doc::line_() + ")").group();
    /// assert_eq!(call("x").pretty(4)?, "f(x)");
    /// assert_eq!(call("x").pretty(3)?, "f(\nx,\n)");
    /// # Ok::<(), yezhgulo::Error>(())
    /// ```
    pub fn flat_alt(self, flat: impl Into<Doc>) -> Doc {
        self.with(flat.into(), &[code::FLAT_ALT])
    }

    /// The document in flat lines, and nothing in broken ones.
    ///
    /// ```
    /// use yezhgulo::Doc;
    ///
    /// assert_eq!(Doc::text("a").when_group_flat().pretty(80)?, "");
    /// # Ok::<(), yezhgulo::Error>(())
    /// ```
    pub fn when_group_flat(self) -> Doc {
        Doc::if_group_flat(self)
    }

    /// The document in broken lines, and nothing in flat ones.
    ///
    /// ```
    /// use yezhgulo::Doc;
    ///
    /// assert_eq!(Doc::text("a").when_group_break().pretty(80)?, "a");
    /// # Ok::<(), yezhgulo::Error>(())
    /// ```
    pub fn when_group_break(self) -> Doc {
        Doc::if_group_break(self)
    }

    /// This document if it can be laid and each text and each line of a payload in it ends within the width, else the
    /// other. In flat lines it is this document.
    ///
    /// ```
    /// use yezhgulo::Doc;
    ///
    /// let body = (Doc::text("head") + Doc::hard_line() + "long body").union("head: body");
    /// assert_eq!(body.pretty(9)?, "head\nlong body");
    /// assert_eq!(body.pretty(8)?, "head: body");
    /// # Ok::<(), yezhgulo::Error>(())
    /// ```
    pub fn union(self, other: impl Into<Doc>) -> Doc {
        self.with(other.into(), &[code::UNION])
    }

    /// The same, by the first line of this document alone.
    ///
    /// ```
    /// use yezhgulo::Doc;
    ///
    /// let body = (Doc::text("head") + Doc::hard_line() + "long body").partial_union("body");
    /// assert_eq!(body.pretty(4)?, "head\nlong body");
    /// assert_eq!(body.pretty(3)?, "body");
    /// # Ok::<(), yezhgulo::Error>(())
    /// ```
    pub fn partial_union(self, other: impl Into<Doc>) -> Doc {
        self.with(other.into(), &[code::PARTIAL_UNION])
    }

    /// The document as a [`line_suffix`](Doc::line_suffix). Nothing, and what is a suffix already, stay as they are.
    ///
    /// ```
    /// use yezhgulo::Doc;
    ///
    /// let statement = Doc::text(" // 1").as_line_suffix() + "a;";
    /// assert_eq!(statement.pretty(80)?, "a; // 1");
    /// # Ok::<(), yezhgulo::Error>(())
    /// ```
    pub fn as_line_suffix(self) -> Doc {
        self.then_unless(code::LINE_SUFFIX, &[code::NIL, code::LINE_SUFFIX])
    }

    /// So many copies of the document. None is nothing.
    ///
    /// ```
    /// use yezhgulo::Doc;
    ///
    /// assert_eq!(Doc::text("ab").repeat(3).pretty(80)?, "ababab");
    /// # Ok::<(), yezhgulo::Error>(())
    /// ```
    pub fn repeat(self, count: usize) -> Doc {
        if count == 0 {
            return Doc::nil();
        }
        let copy = self.clone();
        // Two copies of nothing are a document, as they are in the crate `prettyless`.
        (1..count).fold(self, |before, _| before.with(copy.clone(), &[code::APPEND]))
    }
}

/// # Indents
impl Doc {
    /// The lines that begin in the document are so many columns further to the right, or to the left where the number
    /// is negative. No indent goes below 0.
    ///
    /// ```
    /// use yezhgulo::Doc;
    ///
    /// let body = (Doc::text("begin") + Doc::line() + "body").nest(2);
    /// assert_eq!(body.pretty(80)?, "begin\n  body");
    /// # Ok::<(), yezhgulo::Error>(())
    /// ```
    pub fn nest(self, columns: isize) -> Doc {
        if columns == 0 || self.is_nil() {
            self
        } else {
            self.then(&code::with_number(code::NEST, code::offset(columns)))
        }
    }

    /// [`nest`](Doc::nest) to the right.
    ///
    /// # Panics
    ///
    /// Where `columns` is more than `isize::MAX`.
    ///
    /// ```
    /// use yezhgulo::Doc;
    ///
    /// assert_eq!((Doc::hard_line() + "a").indent(2).pretty(80)?, "\n  a");
    /// # Ok::<(), yezhgulo::Error>(())
    /// ```
    pub fn indent(self, columns: usize) -> Doc {
        self.nest(code::to_the_right(columns))
    }

    /// [`nest`](Doc::nest) to the left.
    ///
    /// # Panics
    ///
    /// Where `columns` is more than `isize::MAX`.
    ///
    /// ```
    /// use yezhgulo::Doc;
    ///
    /// let inner = (Doc::hard_line() + "c").dedent(2);
    /// assert_eq!((Doc::hard_line() + "b" + inner).nest(4).pretty(80)?, "\n    b\n  c");
    /// # Ok::<(), yezhgulo::Error>(())
    /// ```
    pub fn dedent(self, columns: usize) -> Doc {
        self.nest(-code::to_the_right(columns))
    }

    /// The lines that begin in the document have no indent.
    ///
    /// ```
    /// use yezhgulo::Doc;
    ///
    /// let directive = (Doc::hard_line() + "#if").dedent_to_root();
    /// assert_eq!((Doc::hard_line() + "a;" + directive).nest(4).pretty(80)?, "\n    a;\n#if");
    /// # Ok::<(), yezhgulo::Error>(())
    /// ```
    pub fn dedent_to_root(self) -> Doc {
        self.then_unless(code::DEDENT_TO_ROOT, &[code::NIL, code::DEDENT_TO_ROOT])
    }

    /// The lines that begin in the document begin in the column where it starts.
    ///
    /// ```
    /// use yezhgulo::Doc;
    ///
    /// let sum = Doc::text("sum = ") + (Doc::text("one") + Doc::line() + "+ two").group().align();
    /// assert_eq!(sum.pretty(15)?, "sum = one + two");
    /// assert_eq!(sum.pretty(14)?, "sum = one\n      + two");
    /// # Ok::<(), yezhgulo::Error>(())
    /// ```
    pub fn align(self) -> Doc {
        self.then_unless(code::ALIGN, &[code::NIL, code::ALIGN])
    }
}

/// # Quotes and brackets
impl Doc {
    /// The document between two others.
    ///
    /// ```
    /// use yezhgulo::Doc;
    ///
    /// assert_eq!(Doc::text("x").enclose("f(", ")").pretty(80)?, "f(x)");
    /// # Ok::<(), yezhgulo::Error>(())
    /// ```
    pub fn enclose(self, before: impl Into<Doc>, after: impl Into<Doc>) -> Doc {
        before.into().append(self).append(after)
    }

    /// The document between `'` and `'`.
    ///
    /// ```
    /// # use yezhgulo::Doc;
    /// assert_eq!(Doc::text("x").single_quotes().pretty(80)?, "'x'");
    /// # Ok::<(), yezhgulo::Error>(())
    /// ```
    pub fn single_quotes(self) -> Doc {
        self.enclose("'", "'")
    }

    /// The document between `"` and `"`.
    ///
    /// ```
    /// # use yezhgulo::Doc;
    /// assert_eq!(Doc::text("x").double_quotes().pretty(80)?, "\"x\"");
    /// # Ok::<(), yezhgulo::Error>(())
    /// ```
    pub fn double_quotes(self) -> Doc {
        self.enclose("\"", "\"")
    }

    /// The document between `(` and `)`.
    ///
    /// ```
    /// # use yezhgulo::Doc;
    /// assert_eq!(Doc::text("x").parens().pretty(80)?, "(x)");
    /// # Ok::<(), yezhgulo::Error>(())
    /// ```
    pub fn parens(self) -> Doc {
        self.enclose("(", ")")
    }

    /// The document between `<` and `>`.
    ///
    /// ```
    /// # use yezhgulo::Doc;
    /// assert_eq!(Doc::text("x").angles().pretty(80)?, "<x>");
    /// # Ok::<(), yezhgulo::Error>(())
    /// ```
    pub fn angles(self) -> Doc {
        self.enclose("<", ">")
    }

    /// The document between `{` and `}`.
    ///
    /// ```
    /// # use yezhgulo::Doc;
    /// assert_eq!(Doc::text("x").braces().pretty(80)?, "{x}");
    /// # Ok::<(), yezhgulo::Error>(())
    /// ```
    pub fn braces(self) -> Doc {
        self.enclose("{", "}")
    }

    /// The document between `[` and `]`.
    ///
    /// ```
    /// # use yezhgulo::Doc;
    /// assert_eq!(Doc::text("x").brackets().pretty(80)?, "[x]");
    /// # Ok::<(), yezhgulo::Error>(())
    /// ```
    pub fn brackets(self) -> Doc {
        self.enclose("[", "]")
    }
}
