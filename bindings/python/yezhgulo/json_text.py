"""JSON texts, laid out."""

from __future__ import annotations

from typing import Optional, Union

from yezhgulo import _library
from yezhgulo._arguments import text_bytes

__all__ = ["format_json"]


def format_json(
    text: Union[str, bytes],
    width: int = 80,
    *,
    indent: int = 2,
    fill: bool = False,
    keep_blank_lines: bool = False,
    limit: Optional[int] = None,
) -> str:
    r"""The JSON text, laid out within `width` columns, with one LF at its end.

    It is laid out as by `jsonfmt --compact --fill none`. The value stays the same, and each number and each string its
    spelling. `indent` is how many columns a level is moved in. With `fill`, arrays of numbers fill lines. With
    `keep_blank_lines`, blank lines between members stay where lines are broken, of several one. The text is a `str`, or
    bytes in UTF-8, and at most 100,000 levels deep. A text that is not JSON, or is deeper, is a `JsonError`, which says
    where. A layout of more than `limit` bytes is a `LimitError`, and ends once it is past the limit: a short text may
    have a very long layout.

    >>> print(format_json('{"name":"Ada","list":[1,22,333],"empty":{}}', 24), end="")
    {
      "name": "Ada",
      "list": [1, 22, 333],
      "empty": {}
    }
    >>> format_json('[1.50, 1e2]')
    '[1.50, 1e2]\n'
    >>> print(format_json('[1, 2, 3, 4, 5, 6]', 12, indent=4, fill=True), end="")
    [
        1, 2, 3,
        4, 5, 6
    ]
    >>> print(format_json('[1,\n\n\n2, 3]', 8, keep_blank_lines=True), end="")
    [
      1,
    <BLANKLINE>
      2,
      3
    ]
    >>> format_json('[1 2]')
    Traceback (most recent call last):
    ...
    yezhgulo.errors.JsonError: line 1, column 4: expected `,` or `]`
    """
    return _library.layout_json(text_bytes(text, "a JSON text"), width, indent, fill, keep_blank_lines, limit)
