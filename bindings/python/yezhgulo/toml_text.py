"""TOML texts, laid out."""

from __future__ import annotations

from typing import Optional, Union

from yezhgulo import _library
from yezhgulo._arguments import text_bytes

__all__ = ["format_toml"]


def format_toml(text: Union[str, bytes], width: int = 80, *, indent: int = 2, limit: Optional[int] = None) -> str:
    r"""The TOML text, laid out within `width` columns, with a line end at its end unless it is empty.

    The statements stay the same, with each key, value and comment as it is spelled. `indent` is how many columns the
    members of a broken array are moved in. Lines end as the first line of the text does. The text is a `str`, or bytes
    in UTF-8, and TOML 1.0 with at most 128 brackets in one another; a key that is defined twice is no fault. Any other
    text is a `TomlError`, which says where. A layout of more than `limit` bytes is a `LimitError`. The whole layout is
    made in memory first, so a limit bounds neither memory nor time: see "Limits" in `docs/BINDINGS.md` of the
    repository.

    >>> print(format_toml('name="Ada"\nlist=[1,22,# two\n333]', 24), end="")
    name = "Ada"
    list = [
      1,
      22, # two
      333,
    ]
    >>> format_toml('list=[1,22,333]')
    'list = [1, 22, 333]\n'
    >>> print(format_toml('list=[1,22,333]', 18, indent=4), end="")
    list = [
        1, 22, 333,
    ]
    >>> format_toml('list = [1 22]')
    Traceback (most recent call last):
    ...
    yezhgulo.errors.TomlError: line 1, column 11: expected `,` or `]`
    """
    return _library.layout_toml(text_bytes(text, "a TOML text"), width, indent, limit)
