"""Checks of arguments. What they raise names the argument that is wrong."""

from __future__ import annotations

from operator import index
from typing import Union

# The greatest number that the library takes.
MOST = 2**64 - 1


def whole(value: int, name: str) -> int:
    """An argument that is an `int`, or counts as one."""
    try:
        return index(value)
    except TypeError:
        raise TypeError(f"{name} is an int, not {type(value).__name__}") from None


def number(value: int, name: str, least: int = 0, most: int = MOST) -> int:
    """An argument from `least` to `most`."""
    checked = whole(value, name)
    if not least <= checked <= most:
        raise ValueError(f"{name} is from {least} to {most}, not {checked}")
    return checked


def encoded(text: str) -> bytes:
    """The bytes of a text. A lone surrogate in it is a `UnicodeEncodeError`."""
    try:
        return str.encode(text)
    except TypeError:
        raise TypeError(f"a text is a str, not {type(text).__name__}") from None


def text_bytes(text: Union[str, bytes], name: str) -> bytes:
    """The bytes of a text that is a `str` or is bytes already. A lone surrogate in it is a `UnicodeEncodeError`."""
    if isinstance(text, str):
        return str.encode(text)
    if isinstance(text, bytes):
        return text
    raise TypeError(f"{name} is a str or bytes, not {type(text).__name__}")
