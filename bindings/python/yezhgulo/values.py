"""Values of Python, laid out: containers, dataclasses, enums, and classes of your own.

On one line a value is as its `repr`, but for three kinds: an enum is shown by its name, the items of a set are in order,
and an `OrderedDict` is as in Python 3.12. On several lines it is as formatters of Python lay it out. A class of your own
has a method `__pretty__`, which takes no argument and answers a document:

>>> from yezhgulo import *
>>> class Range:
...     def __init__(self, first, last):
...         self.first, self.last = first, last
...     def __pretty__(self):
...         return group(pretty(self.first), " ..", line, pretty(self.last))
>>> pprint([Range(1, 2), Range(300_000, 400_000)], 24)
[
    1 .. 2,
    300000 .. 400000,
]
"""

from __future__ import annotations

from collections import Counter, OrderedDict, defaultdict, deque
from dataclasses import fields
from enum import Enum, Flag, IntFlag
from typing import IO, Any, Dict, Generator, Iterable, List, Optional, Set, Tuple, Union

from yezhgulo.documents import Doc, align, bracketed, concat, hard_line, join, text

__all__ = ["pformat", "pprint", "pretty"]

# What shows a value that holds others: it yields each of these, gets its document, and returns the document of all.
_Showing = Generator[Any, Doc, Doc]


def pretty(value: object) -> Doc:
    """The document of a value, on one line where that fits. It is for `__pretty__`; `pformat` lays a value out.

    Values may be as deep as memory allows. A value that holds itself is shown there as `...` in its brackets.

    >>> print(concat("values = ", pretty({"one": 1, "more": [2, 3]})).layout(24))
    values = {
        'one': 1,
        'more': [2, 3],
    }
    """
    answer = _begun(value)
    # Those that are being shown, each inside the one before it. So nothing here calls itself.
    showing: List[Tuple[_Showing, int]] = []
    held: Set[int] = set()
    while True:
        if not isinstance(answer, Doc):
            showing.append((answer, id(value)))
            held.add(id(value))
        elif not showing:
            return answer
        try:
            value = showing[-1][0].send(answer if isinstance(answer, Doc) else None)  # type: ignore[arg-type]
            answer = text(_around(value)) if id(value) in held else _begun(value)
        except StopIteration as done:
            held.remove(showing.pop()[1])
            answer = done.value


def pformat(value: object, width: int = 80) -> str:
    """The layout of a value within lines of `width` columns.

    >>> print(pformat({"name": "Ada", "born": (1815, 12, 10), "tags": {"b", "a"}}, 30))
    {
        'name': 'Ada',
        'born': (1815, 12, 10),
        'tags': {'a', 'b'},
    }
    """
    return pretty(value).layout(width, deferred=True)


def pprint(value: object, width: int = 80, *, file: Optional[IO[str]] = None, end: str = "\n") -> None:
    """Prints `pformat(value, width)`, and `end` after it, to `file`, which is standard output where it is not given.

    >>> pprint(["one", "two"], 9)
    [
        'one',
        'two',
    ]
    """
    pretty(value).print(width, file=file, end=end, deferred=True)


def _begun(value: Any) -> Union[Doc, _Showing]:
    """The document of a value, or, where it holds others, what shows it."""
    kind = type(value)
    own = getattr(kind, "__pretty__", None)
    if own is not None:
        return concat(own(value))
    # A class with a `repr` of its own is shown by that.
    show = _HOLDING.get(kind.__repr__)
    if show is not None:
        return show(value)
    if _is_made_by_dataclass(kind.__repr__):
        named = [(it.name, getattr(value, it.name)) for it in fields(kind) if it.repr]
        return _fields(kind.__qualname__, named)
    if hasattr(kind, "_fields") and kind.__repr__.__module__ == "collections":
        return _fields(kind.__name__, zip(kind._fields, value))
    if kind.__repr__ in _OF_ENUMS and value._name_ is not None:
        return text(" | ".join(f"{kind.__qualname__}.{name}" for name in value._name_.split("|")))
    return _by_repr(value)


def _by_repr(value: object) -> Doc:
    """The `repr`, whose further lines begin in the column of the first."""
    shown = repr(value)
    if not shown.isascii():
        shown = shown.encode("utf-8", "backslashreplace").decode()
    return align(join(hard_line, shown.split("\n"))) if "\n" in shown else text(shown)


def _is_made_by_dataclass(shown: Any) -> bool:
    made = getattr(shown, "__wrapped__", None)
    return "__create_fn__" in getattr(made, "__qualname__", "")


def _around(value: object) -> str:
    """What a value shows that is inside itself."""
    return {list: "[...]", dict: "{...}"}.get(type(value), "...")


# What shows each kind of value.


def _bracketed(before: str, docs: Iterable[Doc], after: str) -> Doc:
    return bracketed(before, docs, after, indent=4, trailing=True)


def _items(value: Iterable[Any], before: str, after: str) -> _Showing:
    docs = []
    for item in value:
        docs.append((yield item))
    return _bracketed(before, docs, after)


def _list(value: Iterable[Any]) -> _Showing:
    return _items(value, "[", "]")


def _tuple(value: Tuple[Any, ...]) -> _Showing:
    if len(value) != 1:
        return (yield from _items(value, "(", ")"))
    item = yield value[0]
    return bracketed("(", [item + ","], ")", indent=4)


def _dict(value: Dict[Any, Any]) -> _Showing:
    docs = []
    for key, item in value.items():
        shown = yield key
        docs.append(concat(shown, ": ", (yield item)))
    return _bracketed("{", docs, "}")


def _set(value: Iterable[Any]) -> _Showing:
    name = type(value).__name__
    try:
        items = sorted(value)
    except TypeError:
        items = sorted(value, key=repr)
    if not items:
        return text(f"{name}()")
    shown = yield from _items(items, "{", "}")
    return shown if type(value) is set else concat(f"{name}(", shown, ")")


def _deque(value: Any) -> _Showing:
    shown = yield from _list(value)
    most = "" if value.maxlen is None else f", maxlen={value.maxlen}"
    return concat(f"{type(value).__name__}(", shown, f"{most})")


def _defaultdict(value: Any) -> _Showing:
    shown = yield from _dict(value)
    return concat(f"{type(value).__name__}({value.default_factory!r}, ", shown, ")")


def _named_dict(name: str, value: Dict[Any, Any]) -> _Showing:
    if not value:
        return text(f"{name}()")
    shown = yield from _dict(value)
    return concat(f"{name}(", shown, ")")


def _ordered_dict(value: Any) -> _Showing:
    return _named_dict(type(value).__name__, value)


def _counter(value: Any) -> _Showing:
    try:
        ordered = dict(value.most_common())
    except TypeError:
        ordered = dict(value)
    return _named_dict(type(value).__name__, ordered)


def _fields(name: str, named: Iterable[Tuple[str, Any]]) -> _Showing:
    docs = []
    for field, item in named:
        docs.append(concat(f"{field}=", (yield item)))
    return _bracketed(f"{name}(", docs, ")")


_HOLDING = {
    list.__repr__: _list,
    tuple.__repr__: _tuple,
    dict.__repr__: _dict,
    set.__repr__: _set,
    frozenset.__repr__: _set,
    deque.__repr__: _deque,
    defaultdict.__repr__: _defaultdict,
    OrderedDict.__repr__: _ordered_dict,
    Counter.__repr__: _counter,
}
_OF_ENUMS = {Enum.__repr__, Flag.__repr__, IntFlag.__repr__}
