r"""The language of the cases in cases/.

tools/programs runs each proved program on the cases in the folder of its name, each in a folder of its own, not as
root. Unless a case says otherwise, nothing is written, the status is 0, and no file changes.

    # A comment.

    == a title
    file a.json: "[1,2]"
    words: --write a.json
    new a.json: "[1, 2]\n"

    == fields in common
    stdin: "[1,2]"
    --
    stdout:
    | [1, 2]
    --
    words: --width=5
    stdout: "[\n  1,\n  2\n]\n"

    == rows
    status: 1
    rows: stdin stderr
    "[1,]" "<stdin>:1:4: expected a value, found `]`\n"

A text is strings in quotes with + between them; * N repeats one, and " .." at its end stands for any rest. Escapes
are Rust's, and \xHH any byte. Lines below a field are a text too: after "| ", with a line feed, or strings.

    words                        words after the program's name; in a row, one text
    stdin                        a text, closed, or folder
    stdout, stderr               a text, full (disk) or closed (pipe)
    status                       its number
    file NAME, pipe NAME         a file or named pipe before the run
    link NAME, hard link NAME    where it leads
    mode NAME                    permissions, in octal
    new NAME                     what replaces the file, with its owner and permissions
    as: root                     run by root on another's files
    room                         greatest size of a file
    again: yes                   standard output, as input, is written again
    texts                        a folder of standard inputs
    random: SEED COUNT           standard input is so many random cases (tools/support/cases/random_cases.py)
    value                        standard output has the input's value: yes, or on one line
    takes                        most bytes a read or write takes
    calls                        calls on files, in order
    changes                      a file, and a call: before its first time another appends a line feed
    fails                        an error or nothing: each call, or each named, fails so once
    failure                      status and message of such a run; no file changes
    passed over                  calls whose failure changes nothing
    rows                         fields of each row
"""

import contextlib
import functools
import glob
import os
import re

from support.cases.random_cases import random_cases
from support.command import Failed, content

STRING = r'"(?:[^"\\]|\\.)*"'
REPEATED = rf"{STRING}(?: \* \d+)?"
TEXT = re.compile(rf"{REPEATED}(?: \+ {REPEATED})*(?: \.\.)?")
VALUE = re.compile(rf"{TEXT.pattern}|\S+")
ESCAPE = re.compile(r"\\(?:x(\w\w)|u\{(\w+)\}|(.))")
ESCAPED = {"n": b"\n", "r": b"\r", "t": b"\t", '"': b'"', "\\": b"\\"}
BARE = re.compile(r'[^"\s]\S*')


@contextlib.contextmanager
def naming(place):
    """Has an error in what is read name the place."""
    try:
        yield
    except (Failed, ValueError) as error:
        raise Failed(f"{place}: {error}") from None


class Beginning(bytes):
    """What a text is to begin with."""


class Case:
    """What a case says, by the kinds of its fields; of those with names too, dictionaries. And where it stands."""

    def __init__(self, program, place, title, fields):
        self.program, self.place, self.title, self.fields = program, place, title, fields

    def __getitem__(self, kind):
        return self.fields.get(kind, DEFAULTS.get(kind))

    def having(self, place, fields):
        """The case with other fields, which stands elsewhere."""
        return Case(self.program, place, self.title, merged(self.fields, fields))


def merged(fields, others):
    """The fields with others in their place or, of those with names, beside them."""
    both = {kind: {**fields.get(kind, {}), **value} for kind, value in others.items() if isinstance(value, dict)}
    return {**fields, **others, **both}


DEFAULTS = {"words": [], "stdin": b"", "stdout": b"", "stderr": b"", "status": 0, "passed over": []}
DEFAULTS.update({it: {} for it in ("file", "pipe", "new", "link", "hard link", "mode")})


# Values


def escaped(found):
    byte, code, letter = found.groups()
    if letter and letter not in ESCAPED:
        raise Failed(f"no escape: {found[0]}")
    if letter:
        return ESCAPED[letter]
    return bytes([int(byte, 16)]) if byte else chr(int(code, 16)).encode()


def unquoted(string):
    """The bytes that a quoted string writes."""
    parts, end = [], 1
    for found in ESCAPE.finditer(string):
        parts += [string[end : found.start()].encode(), escaped(found)]
        end = found.end()
    return b"".join([*parts, string[end:-1].encode()])


def text_of(value):
    """The bytes of quoted strings, each as often as it says. A bare word stays one."""
    if BARE.fullmatch(value):
        return value
    if not TEXT.fullmatch(value):
        raise Failed(f"no text: {value}")
    parts = [unquoted(it[1]) * int(it[2] or 1) for it in re.finditer(rf"({STRING})(?: \* (\d+))?", value)]
    return (Beginning if value.endswith(" ..") else bytes)(b"".join(parts))


def bytes_of(value):
    text = text_of(value)
    return text.encode() if isinstance(text, str) else text


def words_of(written):
    return [bytes_of(it) for it in VALUE.findall(written)]


def random_of(written):
    return random_cases(*map(int, written.split())).encode()


def failure_of(written):
    status, message = VALUE.findall(written)
    return int(status), text_of(message)


# How what stands behind each kind of field is read.
READERS = {"words": words_of, "failure": failure_of, "random": random_of}
READERS.update({it: str.split for it in ("calls", "changes", "fails", "passed over", "rows")})
READERS.update({it: text_of for it in ("stdin", "stdout", "stderr", "file", "pipe", "new")})
READERS.update({it: int for it in ("status", "takes", "room")})
READERS.update({it: bytes_of for it in ("link", "hard link")})
READERS.update({it: str for it in ("again", "as", "mode", "texts", "value")})
KINDS = "|".join(sorted(READERS, key=len, reverse=True))
FIELD = re.compile(rf"({KINDS})(?: ({STRING}|[^\s:]+))?:(?: (.*))?")


# Lines


class Field:
    """A field, as it is written."""

    def __init__(self, place, kind, name, written):
        self.place, self.kind, self.name, self.written, self.lines = place, kind, name, written or "", []

    def value(self):
        """What it says: of a text on lines of its own, those after a bar have a line feed at their end, others have none."""
        if self.kind == "rows" or not self.lines:
            return READERS[self.kind](self.written)
        lines = [line for _, line in self.lines]
        return b"".join(it[2:].encode() + b"\n" if it[0] == "|" else text_of(it) for it in lines)

    def added_to(self, fields):
        with naming(self.place):
            value = self.value() if self.name is None else {bytes_of(self.name): self.value()}
        return merged(fields, {self.kind: value})


def fields_of(written):
    return functools.reduce(lambda fields, it: it.added_to(fields), written, {})


def row_of(case, place, line):
    """The case with the values of a row, which are those of the fields that `rows` names."""
    kinds, values = case["rows"], VALUE.findall(line)
    # The words of a row are one text with a space between each two.
    readers = {**READERS, "words": lambda text: bytes_of(text).split(b" ")}
    with naming(place):
        if len(values) != len(kinds):
            raise Failed(f"{len(values)} values, and {len(kinds)} are named")
        return case.having(place, {kind: readers[kind](value) for kind, value in zip(kinds, values)})


class Part:
    """A case, or what several have in common: its title and its fields, as they are written."""

    def __init__(self, place, title):
        self.place, self.title, self.written = place, title, []

    def cases(self, program, common):
        """The cases of a program that it stands for, which have the common fields too."""
        case = Case(program, self.place, self.title, common).having(self.place, fields_of(self.written))
        rows = [row for it in self.written if it.kind == "rows" for row in it.lines]
        return [row_of(case, *it) for it in rows] or [case]


def parts_of(path):
    """The parts of a file, in groups, of which the first part has what the others have in common."""
    groups = []
    for number, line in enumerate(content(path).decode().split("\n")[:-1], 1):
        take_line(groups, f"{path}:{number}", line)
    return groups


def take_line(groups, place, line):
    if line.startswith("== "):
        groups.append([Part(place, line[3:])])
    elif not line or line[0] == "#":
        pass
    elif not groups:
        raise Failed(f"{place}: no case begins with {line}")
    elif line == "--":
        groups[-1].append(Part(place, groups[-1][0].title))
    elif line.startswith(("|", '"')):
        groups[-1][-1].written[-1].lines.append((place, line))
    else:
        found = FIELD.fullmatch(line)
        if not found:
            raise Failed(f"{place}: no field: {line}")
        groups[-1][-1].written.append(Field(place, *found.groups()))


def cases_of(path, program):
    cases = []
    for common, *parts in parts_of(path):
        fields = fields_of(common.written)
        if parts and "rows" in fields:
            raise Failed(f"{common.place}: rows that several cases have in common")
        for part in parts or [common]:
            cases += part.cases(program, fields if parts else {})
    return [one for it in cases for one in with_texts(it, os.path.dirname(path))]


def with_texts(case, folder):
    """The case, or one for each file of the folder that its field `texts` names, whose text is standard input."""
    if case["random"]:
        return [case.having(case.place, {"stdin": case["random"]})]
    if not case["texts"]:
        return [case]
    paths = sorted(glob.glob(f"{folder}/{case['texts']}/*"))
    return [case.having(f"{case.place} {os.path.basename(it)}", {"stdin": content(it)}) for it in paths]
