"""Documents, and their layouts.

Wherever a function takes a document, a `str` stands for its text. Where it takes `*docs`, it takes any number of
documents, and these are laid one after the other.

Some documents are constants:

    nil              nothing
    fail             a document that has no layout; a `union` rejects its first document where it comes to this
    space            one space
    weak_space       one space, or nothing at the beginning and at the end of a line
    line             a line break, or one space where its group is flat
    line_or_nil      a line break, or nothing where its group is flat
    softline         one space where what follows fits up to the next possible break, else a line break
    softline_or_nil  nothing where what follows fits up to the next possible break, else a line break
    hard_line        a line break; it breaks the groups that would show it in a flat line, and fails under `flatten`
    weak_line        a line break; at the beginning of a line it is nothing, unless a suffix is pending there
    expand_parent    nothing, but it breaks the groups around it

Outside of all groups, lines are broken. `help` shows what a function does; of a constant it shows the class `Doc`.
"""

from __future__ import annotations

from typing import IO, Any, Dict, Iterable, List, Optional, Sequence, Tuple, Union

from yezhgulo import _library
from yezhgulo import _programs as code
from yezhgulo._arguments import number, whole
from yezhgulo._programs import Code
from yezhgulo._shown import shown

__all__ = [
    "Doc",
    "DocLike",
    "align",
    "ascii_text",
    "bracketed",
    "concat",
    "dedent",
    "dedent_to_root",
    "expand_parent",
    "fail",
    "fill",
    "flat_alt",
    "flatten",
    "group",
    "hard_line",
    "if_break",
    "if_column_at_least",
    "if_column_at_most",
    "if_column_is_nesting",
    "if_flat",
    "if_nesting_at_least",
    "if_nesting_at_most",
    "indent",
    "join",
    "line",
    "line_or_nil",
    "line_suffix",
    "multiline_text",
    "nest",
    "nil",
    "partial_union",
    "softline",
    "softline_or_nil",
    "space",
    "text",
    "text_of_width",
    "union",
    "weak_line",
    "weak_space",
]


class Doc:
    r"""A document. It never changes, so it may be used in several places and by several threads.

    Only the functions and the constants of this module make documents. A document that is used twice counts twice:
    its nodes are laid in each place. `a + b` is `concat(a, b)`, and `a | b` is `union(a, b)`; one of the two may be
    a `str`. Documents compare by identity: `text("a") == text("a")` is `False`.

    >>> (text("a") + line + "b").layout()
    'a\nb'
    >>> (text("too long") | "short").layout(6)
    'short'
    """

    __slots__ = ("_code",)

    _code: Code

    def __new__(cls, *_: object) -> Doc:
        raise TypeError("a Doc is made by the functions of yezhgulo, such as text and group")

    def __init_subclass__(cls) -> None:
        raise TypeError("Doc has no subclasses")

    def layout(
        self, width: int = 80, *, crlf: bool = False, deferred: bool = False, limit: Optional[int] = None
    ) -> str:
        r"""The layout within lines of `width` columns.

        With `crlf`, a line ends in CR and LF. Without `deferred`, the indent of a line is written at once, so an
        empty line inside a `nest` has trailing spaces. With it, the indent is written before the first text of its
        line, so an empty line has none.

        A `limit` is at least 1. A layout of more bytes stops there with a `LimitError`. A limit does not bound the
        memory of the first document of a `union`, which is laid in memory before it is kept: see "Limits" in
        `docs/BINDINGS.md` of the repository.

        A document that has no layout is a `LayoutError`. This and a `LimitError` have what was laid before. Where
        memory is refused, that is a `MemoryError`. A negative width is a `ValueError`, and so is `limit=0`.

        >>> lines = nest(2, "a", hard_line, hard_line, "b")
        >>> lines.layout()
        'a\n  \n  b'
        >>> lines.layout(deferred=True, crlf=True)
        'a\r\n\r\n  b'
        >>> lines.layout(limit=5)
        Traceback (most recent call last):
        ...
        yezhgulo.errors.LimitError: the layout is longer than 5 bytes
        """
        return _library.layout(code.program_of(self._code), width, crlf, deferred, limit)

    def print(
        self,
        width: int = 80,
        *,
        file: Optional[IO[str]] = None,
        end: str = "\n",
        crlf: bool = False,
        deferred: bool = False,
        limit: Optional[int] = None,
    ) -> None:
        """Prints the layout, and `end` after it, to `file`, which is standard output where it is not given.

        Nothing is printed where there is no layout.

        >>> group("a", line, "b").print(2)
        a
        b
        """
        print(self.layout(width, crlf=crlf, deferred=deferred, limit=limit), file=file, end=end)

    def __str__(self) -> str:
        """The layout within 80 columns."""
        return self.layout()

    def __repr__(self) -> str:
        """The calls that make the document, or only that it is long.

        >>> group("f(", nest(2, line_or_nil, "x") + flat_alt(",", nil), line_or_nil, ")")
        group('f(', concat(nest(2, line_or_nil, 'x'), flat_alt(',', nil)), line_or_nil, ')')
        """
        if code.is_longer(self._code, _SHOWN):
            return f"<Doc of more than {_SHOWN} bytes>"
        return shown(code.program_of(self._code))

    def __add__(self, other: DocLike) -> Doc:
        return _both(self, other, code.APPEND) if isinstance(other, (Doc, str)) else NotImplemented

    def __radd__(self, other: str) -> Doc:
        return _both(other, self, code.APPEND) if isinstance(other, str) else NotImplemented

    def __or__(self, other: DocLike) -> Doc:
        return _both(self, other, code.UNION) if isinstance(other, (Doc, str)) else NotImplemented

    def __ror__(self, other: str) -> Doc:
        return _both(other, self, code.UNION) if isinstance(other, str) else NotImplemented

    def __copy__(self) -> Doc:
        return self

    def __deepcopy__(self, _: Dict[int, Any]) -> Doc:
        return self

    def __reduce__(self) -> Tuple[Any, ...]:
        return (_of_program, (code.program_of(self._code),))


DocLike = Union[Doc, str]

# A document whose program is longer has no calls as its `repr`.
_SHOWN = 4096


# How codes become documents, and documents codes. These are short in calls: they are most of the time of building.

_blank = object.__new__


def _doc(made: Code) -> Doc:
    doc: Doc = _blank(Doc)
    doc._code = made
    return doc


def _of_program(program: bytes) -> Doc:
    """The document of a program that was taken from one."""
    return _doc(code.one(program))


class _Texts(Dict[str, bytes]):
    """The codes of texts, kept where they are short. Most documents have the same few texts many times."""

    def __missing__(self, text: str) -> bytes:
        content = text.encode()
        if len(content) >= len(code.TEXT_HEADS):
            return code.text_code(code.TEXT, text)
        made = code.TEXT_HEADS[len(content)] + content
        if len(self) >= 4096:
            self.clear()
        self[text] = made
        return made


_texts = _Texts()


def _code_of(doc: DocLike) -> Code:
    if type(doc) is str:
        made = _texts[doc]
        return made if len(made) < code.SHORT else (made, b"")
    if isinstance(doc, Doc):
        return doc._code
    if isinstance(doc, str):  # A subclass may compare in a way of its own, so it is never a key.
        return code.one(code.text_code(code.TEXT, doc))
    # `_over` comes here from an error that says nothing more.
    raise TypeError(f"a document is a Doc or a str, not {type(doc).__name__}") from None


def _over(docs: Sequence[DocLike], operation: bytes) -> Doc:
    """The documents, appended in order, and then an operation over them, if that is not empty."""
    codes: List[Code]
    if len(docs) == 1:
        return _doc(code.then(_code_of(docs[0]), operation))
    try:
        codes = [_texts[doc] if type(doc) is str else doc._code for doc in docs]  # type: ignore[union-attr]
    except AttributeError:  # One of them is neither a `Doc` nor exactly a `str`.
        codes = [_code_of(doc) for doc in docs]
    return _doc(code.in_order([code.OPEN, *codes, code.CLOSE, operation]))


def _both(first: DocLike, second: DocLike, operation: bytes) -> Doc:
    """A node over two documents."""
    before, after = _code_of(first), _code_of(second)
    if isinstance(after, bytes):
        return _doc(code.then(before, after + operation))
    return _doc((before, after, operation))


def _listed(docs: Iterable[DocLike], hint: str = "") -> List[DocLike]:
    if isinstance(docs, (str, Doc)):
        raise TypeError(f"docs is an iterable of documents, not a {type(docs).__name__}{hint}")
    return list(docs)


def _joined(separator: DocLike, docs: List[DocLike]) -> Doc:
    if not docs:
        return nil
    parts = [separator] * (2 * len(docs) - 1)
    parts[::2] = docs
    return _over(parts, b"")


def _bytes_of(value: int, name: str) -> bytes:
    return number(value, name).to_bytes(8, "little")


# Texts.


def text(s: str) -> Doc:
    """A text. A character counts as many columns as it takes in most terminals, and as one where it is ASCII.

    A text is never broken. One with line ends in it counts as one line: see `multiline_text`. A `str` in place of a
    document is the same. A lone surrogate, which is no UTF-8, is a `UnicodeEncodeError`.

    >>> row = group("42", line, text("你好"))
    >>> print(row.layout(7))
    42 你好
    >>> print(row.layout(6))
    42
    你好
    """
    return _doc(code.one(_texts[s] if type(s) is str else code.text_code(code.TEXT, s)))


def ascii_text(s: str) -> Doc:
    """A text that counts one column for each byte of its UTF-8, whether it is ASCII or not.

    >>> print(group(ascii_text("ab"), line, "c").layout(4))
    ab c
    """
    return _doc(code.one(code.text_code(code.ASCII_TEXT, s)))


def text_of_width(s: str, width: int) -> Doc:
    r"""A text that counts as `width` columns, such as one with escapes that a terminal does not show.

    >>> red = text_of_width("\x1b[31mred\x1b[m", 3)
    >>> group(red, line, "!").layout(5)
    '\x1b[31mred\x1b[m !'
    """
    return _doc(code.one(code.text_of_width_code(number(width, "width"), s)))


def multiline_text(s: str) -> Doc:
    """A text of several lines, a *payload*: it is written as it is, with no indent and with the line ends that it has.

    It breaks the groups that would show it in a flat line. Where it has no LF and no CR it is the same as `text`.

    >>> print(group("s =", nest(2, line, multiline_text("'one\\ntwo'"))))
    s =
      'one
    two'
    """
    return _doc(code.one(code.text_code(code.MULTILINE_TEXT, s)))


# Constants. The table at the top says what each is.

nil = _doc(code.NIL)
fail = _doc(code.FAIL)
space = text(" ")
weak_space = _doc(code.WEAK_SPACE)
line = _doc(code.LINE)
line_or_nil = _doc(code.LINE_OR_NIL)
softline = _doc(code.LINE + code.GROUP)
softline_or_nil = _doc(code.LINE_OR_NIL + code.GROUP)
hard_line = _doc(code.HARD_LINE)
weak_line = _doc(code.WEAK_LINE)
expand_parent = _doc(code.EXPAND_PARENT)


# Several documents.


def concat(*docs: DocLike) -> Doc:
    """The documents one after the other; `nil` if there are none.

    >>> print(concat("f(", "x", ")"))
    f(x)
    """
    return _over(docs, b"")


def join(separator: DocLike, docs: Iterable[DocLike]) -> Doc:
    """The documents one after the other, with the separator in each gap; `nil` if there are none.

    >>> items = group(join(line, ["1", "2", "3"]))
    >>> print(items.layout(5))
    1 2 3
    >>> print(items.layout(4))
    1
    2
    3
    """
    return _joined(separator, _listed(docs, " (join takes the separator first)"))


def fill(docs: Iterable[DocLike]) -> Doc:
    """The documents with a `softline` in each gap, so that each line takes as many as fit.

    >>> print(fill("aa bb cc".split()).layout(7))
    aa bb
    cc
    """
    return _joined(softline, _listed(docs, " (its words are s.split())"))


def bracketed(
    before: DocLike,
    docs: Iterable[DocLike],
    after: DocLike,
    *,
    indent: int = 2,
    separator: DocLike = ",",
    edge: DocLike = line_or_nil,
    trailing: bool = False,
) -> Doc:
    """The documents between two others: a group, on one line, or on lines of their own that are moved in by `indent`
    columns.

    The separator stands after each document but the last, and also after the last of broken lines where `trailing`
    is true. `edge` (`line_or_nil` if not given) is what stands inside `before` and `after`: with `line`, a flat list
    has spaces there. Where there are no documents, the two stand side by side.

    >>> values = bracketed("[", ["1", bracketed("[", ["2", "3"], "]")], "]")
    >>> print(values.layout(11))
    [1, [2, 3]]
    >>> print(values.layout(10))
    [
      1,
      [2, 3]
    ]
    >>> print(bracketed("{", ["a: 1"], "}", edge=line, trailing=True))
    { a: 1 }
    """
    listed = _listed(docs)
    if not listed:
        return concat(before, after)
    last = if_break(separator) if trailing else nil
    items = _joined(concat(separator, line), listed)
    inside = _over((edge, items, last), code.nest_code(indent, "indent"))
    return group(before, inside, edge, after)


# Groups.


def group(*docs: DocLike) -> Doc:
    """Flat, in one line, if that fits; else with all of its lines broken, but for those of the groups in it.

    >>> pair = group("first", line, "second")
    >>> print(pair.layout(12))
    first second
    >>> print(pair.layout(11))
    first
    second
    """
    return _over(docs, code.GROUP)


def flatten(*docs: DocLike) -> Doc:
    """Flat, at every width. A hard line or a payload in it fails; a weak line still breaks.

    >>> print(flatten("a", line, "b").layout(1))
    a b
    """
    return _over(docs, code.FLATTEN)


def flat_alt(broken: DocLike, flat: DocLike) -> Doc:
    """The first where lines are broken, and the second where they are flat.

    >>> call = group("f(", line_or_nil, "x", flat_alt(",", nil), line_or_nil, ")")
    >>> print(call.layout(4))
    f(x)
    >>> print(call.layout(3))
    f(
    x,
    )
    """
    return _both(broken, flat, code.FLAT_ALT)


def if_break(*docs: DocLike) -> Doc:
    """The documents where lines are broken, and nothing where they are flat.

    >>> print(group("a", line, "b", if_break(",")).layout(2))
    a
    b,
    """
    return flat_alt(concat(*docs), nil)


def if_flat(*docs: DocLike) -> Doc:
    """The documents where lines are flat, and nothing where they are broken.

    >>> print(group("a", line, "b", if_flat(";")).layout(4))
    a b;
    """
    return flat_alt(nil, concat(*docs))


# Indents.


def nest(columns: int, *docs: DocLike) -> Doc:
    """The lines that begin inside it are moved to the right by so many columns, or to the left where they are negative.

    A new line has the indent of what comes next after the break, so put a body into one nest with the break in
    front of it. An indent does not go below 0.

    >>> print(group(nest(2, "begin", line, "body"), line, "end").layout(13))
    begin
      body
    end
    """
    return _over(docs, code.nest_code(columns))


def indent(columns: int, *docs: DocLike) -> Doc:
    """The same as `nest` by so many columns. It adds no line of its own.

    >>> print(indent(4, "{", hard_line, "a;"))
    {
        a;
    """
    return nest(columns, *docs)


def dedent(columns: int, *docs: DocLike) -> Doc:
    """The same as `nest` by so many columns to the left.

    >>> print(nest(4, "{", hard_line, "a;", dedent(2, hard_line, "b:"), hard_line, "c;"))
    {
        a;
      b:
        c;
    """
    return nest(-whole(columns, "columns"), *docs)


def align(*docs: DocLike) -> Doc:
    """The lines that begin inside it begin in the column where it starts.

    >>> print(concat("sum = ", align(group("one", line, "+ two"))).layout(14))
    sum = one
          + two
    """
    return _over(docs, code.ALIGN)


def dedent_to_root(*docs: DocLike) -> Doc:
    """The lines that begin inside it begin in column 0.

    >>> print(nest(4, "{", hard_line, "a;", dedent_to_root(hard_line, "#if"), hard_line, "c;"))
    {
        a;
    #if
        c;
    """
    return _over(docs, code.DEDENT_TO_ROOT)


# What is laid at the end of a line, and alternatives.


def line_suffix(*docs: DocLike) -> Doc:
    """A suffix: it is pending until its line ends, and is laid there. Its width does not count for what fits.

    >>> print(group("a", line_suffix(" // why"), ",", line, "b").layout(4))
    a, b // why
    """
    return _over(docs, code.LINE_SUFFIX)


def union(first: DocLike, second: DocLike) -> Doc:
    """The first if it has a layout and each of its lines fits, else the second. Also `first | second`.

    In flat lines it is the first, without a test.

    >>> body = concat("head", hard_line, "long body") | concat("head", hard_line, "body")
    >>> print(body.layout(9))
    head
    long body
    >>> print(body.layout(8))
    head
    body
    """
    return _both(first, second, code.UNION)


def partial_union(first: DocLike, second: DocLike) -> Doc:
    """As `union`, but it looks at the first line alone.

    If the first document has no break, it looks at what follows too, up to the next break.

    >>> body = partial_union(concat("head", hard_line, "long body"), concat("head", hard_line, "body"))
    >>> print(body.layout(4))
    head
    long body
    >>> print(body.layout(3))
    head
    body
    """
    return _both(first, second, code.PARTIAL_UNION)


# Choices by column, where the next text would begin, and by nesting, which is the indent. Both count from 0.


def if_column_at_most(column: int, yes: DocLike, no: DocLike) -> Doc:
    """The first document if the next text would begin at this column or before it, else the second.

    >>> print(concat("ab", if_column_at_most(1, "!", "?")))
    ab?
    """
    return _both(yes, no, code.COLUMN_AT_MOST + _bytes_of(column, "column"))


def if_column_at_least(column: int, yes: DocLike, no: DocLike) -> Doc:
    """The first document if the next text would begin at this column or after it, else the second.

    >>> print(concat("ab", if_column_at_least(2, "!", "?")))
    ab!
    """
    return _both(yes, no, code.COLUMN_AT_LEAST + _bytes_of(column, "column"))


def if_column_is_nesting(yes: DocLike, no: DocLike) -> Doc:
    """The first document if the next text would begin at the indent, else the second.

    >>> binding = concat("let y =", softline, if_column_is_nesting("  f(x)", "f(x)"))
    >>> print(binding.layout(12))
    let y = f(x)
    >>> print(binding.layout(11))
    let y =
      f(x)
    """
    return _both(yes, no, code.COLUMN_IS_NESTING)


def if_nesting_at_most(columns: int, yes: DocLike, no: DocLike) -> Doc:
    """The first document if the indent is at most so many columns, else the second.

    >>> print(nest(2, if_nesting_at_most(2, "!", "?")))
    !
    """
    return _both(yes, no, code.NESTING_AT_MOST + _bytes_of(columns, "columns"))


def if_nesting_at_least(columns: int, yes: DocLike, no: DocLike) -> Doc:
    """The first document if the indent is at least so many columns, else the second.

    >>> print(nest(2, if_nesting_at_least(3, "!", "?")))
    ?
    """
    return _both(yes, no, code.NESTING_AT_LEAST + _bytes_of(columns, "columns"))
