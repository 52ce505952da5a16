"""The three calls of the library, and where it is found."""

from __future__ import annotations

import ctypes
import os
from typing import Any, Callable, Optional, Tuple, Type, Union

from yezhgulo import _places
from yezhgulo._arguments import number
from yezhgulo.errors import JsonError, LayoutError, LimitError, ProgramError, TomlError

# The statuses, apart from those of a program that writes no document.
_LAID_OUT = 0
_TOO_SMALL = 1
_MEMORY_REFUSED = 2
_FAILS = 3
_PAST_LIMIT = 4
_NOT_JSON = 5
_NOT_TOML = 6

# The name of what was expected in a text has fewer bytes.
_NAME = 256


def _path() -> str:
    """The file of the library: the one that `PRETTYLESS` names, the packed one, that of a checkout, or one installed."""
    here = os.path.dirname(os.path.abspath(__file__))
    packed = os.path.join(here, _places.FILE)
    built = os.path.join(os.path.dirname(os.path.dirname(here)), "out", _places.FILE)
    path = _places.found([packed, built])
    if path is None:
        raise ImportError(f"yezhgulo found no {_places.FILE}: {_places.HOW}")
    return path


def _open() -> ctypes.CDLL:
    try:
        # A call of a `CDLL` lets other threads run, and the library may be called by any number of them.
        return ctypes.CDLL(_path())
    except OSError as error:
        raise ImportError(f"yezhgulo could not load its library ({error}): {_places.HOW}") from error


_size = ctypes.c_size_t
_area = ctypes.POINTER(ctypes.c_char)
_size_out = ctypes.POINTER(_size)
_library = _open()

# A function of the library.
_Function = Callable[..., int]

# The error of a text that is refused.
_Refused = Type[Union[JsonError, TomlError]]

# Calls the library with an area, its capacity, and a place for the number of bytes that were written.
_Call = Callable[[Any, int, Any], int]


def _function(name: str, *options: Any, places: int) -> _Function:
    """A function that takes bytes, a width, these options, a limit, an area, and places for so many numbers."""
    try:
        function = getattr(_library, name)
    except AttributeError:
        raise ImportError(f"the library of yezhgulo has no {name}, so it is of another version: {_places.HOW}") from None
    function.restype = ctypes.c_uint32
    function.argtypes = (ctypes.c_char_p, _size, _size, *options, _size, _area, _size, *[_size_out] * places)
    return function


_layout = _function("prettyless_layout", ctypes.c_bool, ctypes.c_bool, places=1)
_layout_json = _function("prettyless_layout_json", ctypes.c_uint32, ctypes.c_bool, ctypes.c_bool, places=3)
_layout_toml = _function("prettyless_layout_toml", ctypes.c_uint32, places=3)


def _limit(limit: Optional[int]) -> int:
    """The limit as the library takes it, which has 0 for none."""
    return 0 if limit is None else number(limit, "limit (None is for no limit)", least=1)


def _is_cut(status: int, written: int, capacity: int, limit: int) -> bool:
    """Whether what was laid before the layout stopped has more bytes than there was room for."""
    stopped = status in (_FAILS, _PAST_LIMIT)
    return stopped and written >= capacity and (limit == 0 or capacity < limit)


def _called(call: _Call, capacity: int, limit: int) -> Tuple[int, memoryview]:
    """The status of a call and what it wrote. It is called again only where the capacity was too small."""
    written = _size()
    while True:
        if limit:
            capacity = min(capacity, max(limit, _NAME))
        area = bytearray(capacity)
        status = call(ctypes.byref(ctypes.c_char.from_buffer(area)), capacity, ctypes.byref(written))
        if status == _TOO_SMALL:
            capacity = written.value
        elif _is_cut(status, written.value, capacity, limit):
            capacity *= 2
        else:
            return status, memoryview(area)[: written.value]


def _error(status: int, laid: memoryview, limit: int) -> Exception:
    """What a status other than `_LAID_OUT` is to a caller."""
    if status == _MEMORY_REFUSED:
        return MemoryError("the layout was refused memory")
    # A limit may end inside a character.
    before = str(laid, "utf-8", "ignore")
    if status == _FAILS:
        return LayoutError(before)
    if status == _PAST_LIMIT:
        return LimitError(limit, before)
    return ProgramError(status)


def layout(program: bytes, width: int, crlf: bool, deferred: bool, limit: Optional[int]) -> str:
    """The layout of the document that a program writes."""
    columns = number(width, "width")
    most = _limit(limit)

    def call(area: Any, capacity: int, written: Any) -> int:
        return _layout(program, len(program), columns, crlf, deferred, most, area, capacity, written)

    # Most layouts are shorter than their programs: those of deep indents alone are longer than this.
    status, laid = _called(call, 2 * len(program) + 64, most)
    if status != _LAID_OUT:
        raise _error(status, laid, most)
    return str(laid, "utf-8")


def _text_layout(
    function: _Function, refused: _Refused, text: bytes, width: int, indent: int, *flags: bool, limit: Optional[int]
) -> str:
    """The layout of a text by this function, or an error of this type where the text is refused."""
    columns = number(width, "width")
    step = number(indent, "indent", most=2**32 - 1)
    most = _limit(limit)
    line, column = _size(), _size()
    place = (ctypes.byref(line), ctypes.byref(column))

    def call(area: Any, capacity: int, written: Any) -> int:
        return function(text, len(text), columns, step, *flags, most, area, capacity, written, *place)

    status, laid = _called(call, 2 * len(text) + _NAME, most)
    if status in (_NOT_JSON, _NOT_TOML):
        raise refused(line.value, column.value, str(laid, "utf-8", "ignore"))
    if status != _LAID_OUT:
        raise _error(status, laid, most)
    return str(laid, "utf-8")


def layout_json(
    text: bytes, width: int, indent: int, fill: bool, keep_blank_lines: bool, limit: Optional[int]
) -> str:
    """The layout of a JSON text."""
    return _text_layout(_layout_json, JsonError, text, width, indent, fill, keep_blank_lines, limit=limit)


def layout_toml(text: bytes, width: int, indent: int, limit: Optional[int]) -> str:
    """The layout of a TOML text."""
    return _text_layout(_layout_toml, TomlError, text, width, indent, limit=limit)
