"""What may go wrong. Each exception of this module is a `YezhguloError`.

There are exceptions of Python too. Memory that is refused is a `MemoryError`. An argument of a wrong type is a
`TypeError`. A number out of its range, such as a negative width or `limit=0`, is a `ValueError`, and so is a text of
2^32 bytes or more. A text with a lone surrogate, which is no UTF-8, is a `UnicodeEncodeError`.
"""

from __future__ import annotations

__all__ = ["JsonError", "LayoutError", "LimitError", "ProgramError", "TomlError", "YezhguloError"]

_PROGRAM_FAULTS = {
    16: "a byte begins no instruction",
    17: "the bytes end inside an instruction",
    18: "a text is not UTF-8",
    19: "an instruction takes more documents than were made",
    20: "a sequence is closed that was not opened",
    21: "a sequence is open at the end",
}


class YezhguloError(Exception):
    """What all exceptions of this package have in common."""


class LayoutError(YezhguloError):
    r"""The document has no layout: a `fail`, or a hard line or a payload under `flatten`, was to be laid.

    `before` is the layout up to the node that fails.

    >>> print(LayoutError("if x:\n    "))
    no layout: a `fail`, or a hard line or payload under `flatten`, in line 2 after '    '
    """

    def __init__(self, before: str) -> None:
        super().__init__(before)
        self.before = before

    def __str__(self) -> str:
        line = self.before.count("\n") + 1
        last = self.before[self.before.rfind("\n") + 1 :]
        shown = last if len(last) <= 60 else "..." + last[-57:]
        return f"no layout: a `fail`, or a hard line or payload under `flatten`, in line {line} after {shown!r}"


class LimitError(YezhguloError):
    """The layout is longer than the limit, which is a number of bytes.

    `limit` is that number. `before` is a beginning of the layout, of at most so many bytes.

    >>> print(LimitError(4, "abcd"))
    the layout is longer than 4 bytes
    """

    def __init__(self, limit: int, before: str) -> None:
        super().__init__(limit, before)
        self.limit = limit
        self.before = before

    def __str__(self) -> str:
        return f"the layout is longer than {self.limit} bytes"


class _TextError(YezhguloError, ValueError):
    """Where a text is wrong, and what was expected there."""

    def __init__(self, line: int, column: int, expected: str) -> None:
        super().__init__(line, column, expected)
        self.line = line
        self.column = column
        self.expected = expected

    def __str__(self) -> str:
        return f"line {self.line}, column {self.column}: expected {self.expected}"


class JsonError(_TextError):
    """The text is not JSON, or is more than 100,000 levels deep.

    `line` and `column` say where the token begins that is wrong, and in a string where the escape or the control
    character does, or the line or the text ends before its closing quote, both from 1; a column is a character.
    `expected` is what was expected there.

    >>> print(JsonError(2, 4, "`,` or `]`"))
    line 2, column 4: expected `,` or `]`
    """


class TomlError(_TextError):
    """The text is not TOML, or more than 128 brackets are in one another.

    `line` and `column` say where the token begins that is wrong, both from 1; a column is a character. `expected` is
    what was expected there.

    >>> print(TomlError(1, 3, "`.` or `=`"))
    line 1, column 3: expected `.` or `=`
    """


class ProgramError(YezhguloError):
    """The library refused what this package handed it. That is a fault of the package, or of the library that was
    found.

    `status` is the number that the library answered.

    >>> print(ProgramError(17))
    status 17: the bytes end inside an instruction
    """

    def __init__(self, status: int) -> None:
        super().__init__(status)
        self.status = status

    def __str__(self) -> str:
        fault = _PROGRAM_FAULTS.get(self.status, "a status that this package does not know")
        return f"status {self.status}: {fault}"
