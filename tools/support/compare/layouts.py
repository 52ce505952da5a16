"""What `bench` prints of small documents, beside what comes of them by the rules of crates/prettyless_model/specs/Layout.antt,
which are written here once more. The documents are those of crates/bench/src.
"""

import sys
import threading
from concurrent.futures import ThreadPoolExecutor

from support.command import ROOT, read

NIL, BREAK, SPACE, WEAK = ("nil",), ("break",), ("text", " "), ("weak",)
LINE, LINE_ = ("either", BREAK, SPACE), ("either", BREAK, NIL)
CONSTANTS = [NIL, BREAK, SPACE, WEAK, LINE, LINE_]  # an arena places none of these


def text(s):
    return ("text", s)


def append(*docs):
    made = NIL
    for doc in docs:
        made = doc if made is NIL else made if doc is NIL else ("append", made, doc)
    return made


def group(doc):
    return doc if doc[0] in ("nil", "text", "group") else ("group", doc)


def levels(core, around):
    def document(depth):
        made = text(core)
        for _ in range(depth):
            made = around(made)
        return made

    return document


def lines(line):
    return lambda count: append(*(line() for _ in range(count)))


def remark():
    return ("suffix", text("  # why"))


# Of each name its small size, its width, and its document.
WORKLOADS = {
    "texts": (1000, 80, levels("a", lambda d: group(append(text("a"), LINE, d)))),
    "kept": (100, 80, levels("a", lambda d: ("union", append(text("a"), BREAK, d), text("b")))),
    "tails": (100, 80, levels("a", lambda d: append(group(append(LINE_, d)), text("a text of forty columns, behind a group.")))),
    "weak": (1000, 80, lines(lambda: append(text("a text with a remark"), WEAK, remark(), BREAK))),
    "sums": (1000, 80, levels("a", lambda d: group(append(d, LINE, text("+ b"))))),
    "spaces": (1000, 80, levels("a", lambda d: group(append(append(text("a"), WEAK), LINE, d)))),
    "remarks": (1000, 80, levels("a", lambda d: group(append(append(text("a"), remark()), LINE, d)))),
    "unions": (1000, 80, levels("a", lambda d: group(append(text("a"), LINE, ("union", d, text("b")))))),
    "partial": (1000, 80, levels("a", lambda d: group(append(text("a"), LINE, ("partial", d, text("b")))))),
    "records": (50, 80, lines(lambda: append(append(*(group(append(text("a"), text("b"))) for _ in range(30))), BREAK))),
}


class Layout:
    """No document here has an indent, so a line begins at column 0. `column` counts what is written of the line, `gap`
    the weak spaces that wait for content, `fresh` says whether the line has none, `within` whether all stayed within."""

    def __init__(self, width):
        self.width, self.out, self.pending = width, [], ()
        self.column, self.gap, self.fresh, self.within = 0, 0, True, True

    def padding_fits(self, column, gap, pending):
        return not pending or gap == 0 or column + gap <= self.width

    def look(self, doc, flat, column, gap, fresh, pending):
        """An answer, or the line after the document."""
        kind = doc[0]
        if kind == "nil":
            return (column, gap, fresh, pending)
        if kind == "text":
            column += gap + len(doc[1])
            return (column, 0, False, pending) if column <= self.width else False
        if kind == "weak":
            return (column, gap if fresh else gap + 1, fresh, pending)
        if kind == "break":
            return not flat and self.padding_fits(column, gap, pending)
        if kind == "suffix":
            return (column, gap, fresh, True)
        if kind == "append":
            found = self.look(doc[1], flat, column, gap, fresh, pending)
            return found if isinstance(found, bool) else self.look(doc[2], flat, *found)
        # of two documents: a broken line has the first of an either, and the second of a union
        is_first = kind == "group" or flat == (kind != "either")
        return self.look(doc[1 if is_first else 2], flat, column, gap, fresh, pending)

    def probe(self, doc, flat, rest):
        found = self.look(doc, flat, self.column, self.gap, self.fresh, self.pending != ())
        while not isinstance(found, bool):
            if rest is None:
                return self.padding_fits(found[0], found[1], found[3])
            found = self.look(rest[0], False, *found)
            rest = rest[1]
        return found

    def lay(self, doc, flat, rest):
        kind = doc[0]
        if kind == "text":
            self.out.append(" " * self.gap + doc[1])
            self.column, self.gap, self.fresh = self.column + self.gap + len(doc[1]), 0, False
            self.within = self.within and self.column <= self.width
        elif kind == "weak":
            self.gap += not self.fresh
        elif kind == "break":
            self.flush((doc, rest))
            self.out.append("\n")
            self.column, self.gap, self.fresh = 0, 0, True
        elif kind == "suffix":
            self.pending += (doc[1],)
        elif kind == "append":
            self.lay(doc[1], flat, (doc[2], rest))
            self.lay(doc[2], flat, rest)
        elif kind == "group":
            self.lay(doc[1], flat or self.probe(doc[1], True, rest), rest)
        elif kind == "either":
            self.lay(doc[2 if flat else 1], flat, rest)
        elif kind == "partial":
            self.lay(doc[1 if flat or self.probe(doc[1], False, rest) else 2], flat, rest)
        elif kind == "union":
            self.lay_union(doc, flat, rest)

    def lay_union(self, doc, flat, rest):
        if flat:
            return self.lay(doc[1], flat, rest)
        before, written = (self.pending, self.column, self.gap, self.fresh, self.within), len(self.out)
        self.within = True
        self.lay(doc[1], flat, rest)
        if self.within and self.padding_fits(self.column, self.gap, self.pending != ()):
            self.within = before[4]
            return
        del self.out[written:]
        self.pending, self.column, self.gap, self.fresh, self.within = before
        self.lay(doc[2], flat, rest)

    def flush(self, rest):
        while self.pending:
            docs, self.pending = self.pending, ()
            self.within = self.within and self.padding_fits(self.column, self.gap, True)
            self.out.append(" " * self.gap)
            self.column, self.gap, self.fresh = self.column + self.gap, 0, False
            for at, doc in enumerate(docs):
                for later in reversed(docs[at + 1 :]):
                    rest = (later, rest)
                self.lay(doc, False, rest)


def placed(doc):
    count, left = 0, [doc]
    while left:
        doc = left.pop()
        if not any(doc is constant for constant in CONSTANTS):
            count += 1
            left.extend(part for part in doc[1:] if isinstance(part, tuple))
    return count


def line_of(name):
    """The name, nodes, bytes and checksum of a small document, as `bench` prints them."""
    size, width, document = WORKLOADS[name]
    doc, layout = document(size), Layout(width)
    layout.lay(doc, False, None)
    layout.flush(None)
    out, total = "".join(layout.out).encode(), 0
    for byte in out:
        total = (total * 257 + byte) % 4294967291
    return f"{name} {placed(doc)} {len(out)} {total:08x}"


def in_a_deep_stack(call):
    """What a call answers that calls itself as deep as documents are."""
    sys.setrecursionlimit(10**7)
    threading.stack_size(2**30)
    with ThreadPoolExecutor(1) as pool:
        return pool.submit(call).result()


def compare(_, __):
    stored = {it.split()[0]: it for it in read(f"{ROOT}/crates/bench/stdout").splitlines()}
    lines = in_a_deep_stack(lambda: {name: line_of(name) for name in WORKLOADS})
    others = [name for name, line in lines.items() if line != stored[name]]
    for name in others:
        print(f"{lines[name]}, where bench prints {stored[name]}")
    return f"{len(lines)} documents, {len(others)} otherwise", len(others)
