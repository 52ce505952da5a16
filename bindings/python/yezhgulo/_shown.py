"""Programs as the calls that make their documents, for `repr`. Nothing here calls itself, at any depth."""

from __future__ import annotations

from struct import Struct
from typing import Any, Iterator, List, NamedTuple

from yezhgulo import _programs as code

# What each instruction is, by its code.
_LEAVES = {
    code.NIL[0]: "nil",
    code.FAIL[0]: "fail",
    code.WEAK_SPACE[0]: "weak_space",
    code.HARD_LINE[0]: "hard_line",
    code.WEAK_LINE[0]: "weak_line",
    code.EXPAND_PARENT[0]: "expand_parent",
    code.LINE[0]: "line",
    code.LINE_OR_NIL[0]: "line_or_nil",
}
# The constants that are a group of a line.
_SOFT = {"line": "softline", "line_or_nil": "softline_or_nil"}
_TEXTS = {
    code.TEXT: "text",
    code.ASCII_TEXT: "ascii_text",
    code.TEXT_OF_WIDTH: "text_of_width",
    code.MULTILINE_TEXT: "multiline_text",
}
_OVER = {
    code.GROUP[0]: "group",
    code.FLATTEN[0]: "flatten",
    code.ALIGN[0]: "align",
    code.DEDENT_TO_ROOT[0]: "dedent_to_root",
    code.LINE_SUFFIX[0]: "line_suffix",
}
_BOTH = {
    code.FLAT_ALT[0]: "flat_alt",
    code.UNION[0]: "union",
    code.PARTIAL_UNION[0]: "partial_union",
    code.COLUMN_AT_MOST[0]: "if_column_at_most",
    code.COLUMN_AT_LEAST[0]: "if_column_at_least",
    code.COLUMN_IS_NESTING[0]: "if_column_is_nesting",
    code.NESTING_AT_MOST[0]: "if_nesting_at_most",
    code.NESTING_AT_LEAST[0]: "if_nesting_at_least",
}
# Those of the last that have a number before their documents.
_NUMBERED = {it for it, name in _BOTH.items() if name.startswith("if_") and name != "if_column_is_nesting"}

_LENGTH, _NUMBER, _COLUMNS = Struct("<I"), Struct("<Q"), Struct("<q")

# An expression: a name, a text, a call or a sequence.
_Expression = Any


class _Text(str):
    """A text as an argument: its `repr`."""


class _Call(NamedTuple):
    """A call of a function of the package."""

    name: str
    arguments: List[_Expression]


class _Sequence(List[_Expression]):
    """Documents one after the other: arguments of the call over them, or else of `concat`."""


class _Reader:
    """Reads the program of a document."""

    def __init__(self, program: bytes) -> None:
        self.program = program
        self.at = 0
        # The documents of each sequence that is open.
        self.open = [_Sequence()]

    def document(self) -> _Expression:
        while self.at < len(self.program):
            self.step()
        [[document]] = self.open
        return document

    def number(self, form: Struct) -> int:
        [value] = form.unpack_from(self.program, self.at)
        self.at += form.size
        return int(value)

    def text(self) -> _Text:
        length = self.number(_LENGTH)
        self.at += length
        return _Text(repr(self.program[self.at - length : self.at].decode()))

    def step(self) -> None:
        """Reads an instruction, and puts what it makes in place of what it takes."""
        operation = self.program[self.at]
        self.at += 1
        docs = self.open[-1]
        if operation in _LEAVES:
            docs.append(_LEAVES[operation])
        elif operation in _TEXTS:
            docs.append(self.text_node(operation))
        elif operation in _OVER:
            docs.append(_over(_OVER[operation], docs.pop()))
        elif operation == code.NEST:
            docs.append(_Call("nest", [str(self.number(_COLUMNS)), *_listed(docs.pop())]))
        elif operation in _BOTH:
            number = [str(self.number(_NUMBER))] if operation in _NUMBERED else []
            second, first = docs.pop(), docs.pop()
            docs.append(_Call(_BOTH[operation], [*number, first, second]))
        elif operation == code.APPEND[0]:
            second, first = docs.pop(), docs.pop()
            docs.append(_appended(first, second))
        elif operation == code.OPEN[0]:
            self.open.append(_Sequence())
        else:
            self.open.pop()
            self.open[-1].append(docs)

    def text_node(self, operation: int) -> _Expression:
        width = [str(self.number(_NUMBER))] if operation == code.TEXT_OF_WIDTH else []
        text = self.text()
        return text if operation == code.TEXT else _Call(_TEXTS[operation], [text, *width])


def _listed(document: _Expression) -> List[_Expression]:
    return document if isinstance(document, _Sequence) else [document]


def _over(name: str, document: _Expression) -> _Expression:
    if name == "group" and isinstance(document, str) and document in _SOFT:
        return _SOFT[document]
    return _Call(name, _listed(document))


def _appended(first: _Expression, second: _Expression) -> _Sequence:
    """A chain of appended documents is one sequence."""
    sequence = first if isinstance(first, _Sequence) else _Sequence([first])
    sequence.append(second)
    return sequence


def _pieces(expression: _Expression) -> Iterator[str]:
    """The text of an expression, in parts."""
    todo = [expression]
    while todo:
        part = todo.pop()
        if isinstance(part, str):
            yield part
            continue
        name, arguments = part if isinstance(part, _Call) else ("concat", part)
        todo.append(")")
        for argument in reversed(arguments):
            todo += [argument, ", "]
        if arguments:
            todo.pop()
        todo.append(f"{name}(")


def shown(program: bytes) -> str:
    """An expression whose document has the layouts of the program's."""
    document = _Reader(program).document()
    return f"text({document})" if isinstance(document, _Text) else "".join(_pieces(document))
