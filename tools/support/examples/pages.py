"""The examples of a page: what each of its indented blocks is.

A block is one of these:
- an example: statements of Rust, and what comes of them. That is a table after an empty line, or an outcome in `// ` on the
  last line, as in a comment;
- items, such as functions, that all examples of the page may name. They may also stand before the statements of one, with an
  empty line between;
- a listing: each part of it between empty lines stands in a file of crates/, apart from spaces and line ends;
- a table alone, whose layouts a test in crates/test_* states, each as `(22, "..")`, where 22 is the width;
- a line of crates.txt;
- commands of a shell, each after `$ `.

A table has a head, such as `80 columns | 2 columns`, and below it the layouts, without empty lines at their ends. In place of
a width, a head may name options that the example has made. The layouts are those of what the last `let` names or, where the
example names `width`, what is in `out` after it was run with that. `·` is a space at the end of a line, `␍` a CR.
"""

import collections
import json
import os
import re
import unicodedata

from support.command import read
from support.crates import crates_of

HEAD = re.compile(r"(?:\d+ columns?|[a-z]+)(?: +\| (?:\d+ columns?|[a-z]+))+")
ITEM = re.compile(r"(?:const|enum|fn|impl|struct)\b| ")
CONTRACT = re.compile(r" +(?:ensures|requires) ")
OUTCOME = re.compile(r"(?:^|[;})] )// ")
FENCE = re.compile(r" *(?:```|~~~)")
LINE_OF_CRATES = re.compile(r"\w+:(?: \w+)*")
MARKS = str.maketrans("·␍", " \r")

# Lines of a block between two empty lines, and where the first of them stands.
Part = collections.namedtuple("Part", "line lines")
# A column of a table: its head, and the layout below.
Column = collections.namedtuple("Column", "head layout")


class Example(collections.namedtuple("Example", "path line code columns", defaults=[()])):
    """The lines of an example, and where the first of them stands. Where no table follows, the last has an outcome."""

    @property
    def place(self):
        return f"{self.path}:{self.line}"


class Items(Example):
    """Items that the examples of a page may name."""


class Texts:
    """The files of crates/, for what a page has of them."""

    def __init__(self):
        paths = [path for crate in crates_of(".").values() for path in crate.sources() if os.path.isfile(path)]
        texts = {path: read(path) for path in paths}
        self.squeezed = [squeezed(it) for it in texts.values()]
        self.tests = [text for path, text in texts.items() if "/crates/test_" in path]

    def have(self, part):
        """Whether the lines stand in a file, apart from spaces and line ends."""
        listed = squeezed("".join(part.lines))
        return any(listed in it for it in self.squeezed)

    def state(self, column):
        """Whether a test states the layout at this width, alone or with a line end after it."""
        rows = [f"({column.head.split()[0]}, {literal(column.layout + end)})" for end in ("", "\n")]
        return any(row in it for it in self.tests for row in rows)


def squeezed(text):
    return re.sub(r"\s", "", text).replace(",)", ")")


def literal(text):
    return json.dumps(text, ensure_ascii=False)


def blocks_of(path, faults):
    """The blocks of a page, each as the list of its parts."""
    block, part = [], []
    for number, line in enumerate([*read(path).splitlines(), "end"], 1):
        if line.startswith("    "):
            block += [] if part else [Part(number, part)]
            part.append(line[4:])
        elif not line.strip():
            part = []
        else:
            if block:
                yield block
            block, part = [], []
            if FENCE.match(line):
                faults.append(f"{path}:{number}: blocks of this page are indented, and have no fence")


def cells_of(line, bars):
    """The cells of a line of a table, or None where it has no bar in one of these columns."""
    wide = "".join(f"{it}\0" if unicodedata.east_asian_width(it) in "WF" else it for it in line) + " "
    if any(wide[it - 1 : it + 2] != " | " for it in bars):
        return None
    cells = [wide[start:end] for start, end in zip([0, *(it + 2 for it in bars)], [*bars, None])]
    return [it.rstrip().replace("\0", "") for it in cells]


def columns_of(path, table, faults):
    """The columns of a table. There are none where a bar is not below that of the head."""
    bars = [it.start() for it in re.finditer(r"\|", table.lines[0])]
    rows = [cells_of(it, bars) for it in table.lines]
    if None in rows:
        faults.append(f"{path}:{table.line + rows.index(None)}: a bar of this line is not below that of the head")
        return []
    heads, *rows = rows
    return [Column(head, "\n".join(it).rstrip("\n").translate(MARKS)) for head, it in zip(heads, zip(*rows))]


def lines_of(parts):
    """The lines of parts, with an empty one between each two."""
    return "\n\n".join("\n".join(it.lines) for it in parts).split("\n")


def has_items(part):
    """Whether the lines are of items. A function with a contract is none: it has to be a listing."""
    return ITEM.match(part.lines[0]) and not any(CONTRACT.match(it) for it in part.lines)


def parted(block):
    tables = [it for it in block if HEAD.fullmatch(it.lines[0])]
    code = [it for it in block if it not in tables]
    count = next((at for at, it in enumerate(code) if not has_items(it)), len(code))
    return code[:count], code[count:], tables


def is_no_example(block, columns, texts):
    """Whether it is a listing, a table of layouts that tests state, a line of crates.txt, or commands of a shell."""
    if columns and len(block) == 1:
        return all(texts.state(it) for it in columns)
    if all(it.startswith("$ ") for it in lines_of(block)):
        return True
    return all(texts.have(it) for it in block) or LINE_OF_CRATES.fullmatch("\n".join(lines_of(block)))


def examples_of(path, faults):
    texts = Texts()
    for block in blocks_of(path, faults):
        items, statements, tables = parted(block)
        columns = [column for it in tables for column in columns_of(path, it, faults)]
        is_example = statements and (columns or OUTCOME.search(statements[-1].lines[-1]))
        if (tables and not columns) or (not is_example and is_no_example(block, columns, texts)):
            continue
        if items:
            yield Items(path, items[0].line, lines_of(items))
        if is_example:
            yield Example(path, statements[0].line, lines_of(statements), columns)
        elif statements or columns:
            faults.append(f"{path}:{block[0].line}: this looks like an example, and is none")
