"""Programs: documents as bytes, with one instruction for each node, after those of the documents below it.

The *code* of a document is its program, which makes exactly one document. A short code is bytes. A long one is a
tuple of codes, in order, and the last of these is bytes. A node over a long code holds it as it is, so that a chain
of any length is built in linear time. Nothing here calls itself, at any depth.
"""

from __future__ import annotations

from struct import Struct
from struct import error as StructError
from typing import Any, List, Tuple, Union

from yezhgulo._arguments import encoded, whole

Code = Union[bytes, Tuple[Any, ...]]

# Fewer bytes than these are copied into the codes above them; more are held. With a larger number each node of a
# chain copies more bytes, and with a smaller one a large document has more parts.
SHORT = 1024

NIL = b"\x00"
FAIL = b"\x01"
WEAK_SPACE = b"\x02"
HARD_LINE = b"\x03"
WEAK_LINE = b"\x04"
EXPAND_PARENT = b"\x05"
LINE = b"\x06"
LINE_OR_NIL = b"\x07"

TEXT = 16
ASCII_TEXT = 17
TEXT_OF_WIDTH = 18
MULTILINE_TEXT = 19

GROUP = b"\x20"
FLATTEN = b"\x21"
ALIGN = b"\x22"
DEDENT_TO_ROOT = b"\x23"
LINE_SUFFIX = b"\x24"
NEST = 37

APPEND = b"\x30"
FLAT_ALT = b"\x31"
UNION = b"\x32"
PARTIAL_UNION = b"\x33"
COLUMN_AT_MOST = b"\x34"
COLUMN_AT_LEAST = b"\x35"
COLUMN_IS_NESTING = b"\x36"
NESTING_AT_MOST = b"\x37"
NESTING_AT_LEAST = b"\x38"

OPEN = b"\x40"
CLOSE = b"\x41"

_text_head = Struct("<BI").pack
_text_of_width_head = Struct("<BQI").pack
_nest = Struct("<Bq").pack

# What comes before the bytes of a short text, by their number.
TEXT_HEADS = tuple(_text_head(TEXT, length) for length in range(28))


def text_code(operation: int, text: str) -> bytes:
    """A text, with its length."""
    content = encoded(text)
    try:
        return _text_head(operation, len(content)) + content
    except StructError:
        raise ValueError("a text has at most 2**32 - 1 bytes") from None


def text_of_width_code(width: int, text: str) -> bytes:
    """A text that counts as so many columns, a number from 0 and below 2^64."""
    content = encoded(text)
    try:
        return _text_of_width_head(TEXT_OF_WIDTH, width, len(content)) + content
    except StructError:
        raise ValueError("a text has at most 2**32 - 1 bytes") from None


def nest_code(columns: int, name: str = "columns") -> bytes:
    """A nest, by an argument of at least -2^63 and below 2^63."""
    try:
        return _nest(NEST, columns)
    except StructError:
        raise ValueError(f"{name} is from -2**63 to 2**63 - 1, not {whole(columns, name)}") from None


def one(code: bytes) -> Code:
    """The code of these bytes, which are of any length."""
    return code if len(code) < SHORT else (code, b"")


def then(code: Code, more: bytes) -> Code:
    """A code, and short bytes after it."""
    if isinstance(code, bytes):
        return one(code + more)
    # A pair ends in short bytes. They grow until they are long, and only they are copied.
    if len(code) == 2 and len(code[1]) < SHORT:
        return (code[0], code[1] + more)
    return (code, more)


def in_order(parts: List[Code]) -> Code:
    """Codes one after the other, and short bytes after them."""
    try:
        whole = b"".join(parts)  # type: ignore[arg-type]
    except TypeError:  # A long code is a tuple, which `join` refuses. This finds one faster than a loop.
        return tuple(parts)
    return whole if len(whole) < SHORT else (whole, b"")


def is_longer(code: Code, most: int) -> bool:
    """Whether a code has more than so many bytes. It looks no further than that."""
    left = most
    todo: List[Code] = [code]
    while todo and left >= 0:
        part = todo.pop()
        if isinstance(part, bytes):
            left -= len(part)
        else:
            todo.extend(part)
    return left < 0


def program_of(code: Code) -> bytes:
    """The bytes of a code."""
    if isinstance(code, bytes):
        return code
    pieces: List[bytes] = []
    todo: List[Code] = [code]
    # The last part comes first, and so the pieces are the last first.
    while todo:
        part = todo.pop()
        if isinstance(part, bytes):
            pieces.append(part)
        else:
            todo.extend(part)
    pieces.reverse()
    return b"".join(pieces)
