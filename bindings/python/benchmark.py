"""The time of this package beside a printer in pure Python, on the same documents.

    python3 benchmark.py [depth]

The pure printer is that of Wadler's "A prettier printer", with a work list in place of lazy lists. A row has the
least processor time of several rounds in milliseconds: our building and our layout, and the pure printer's building
and layout. Their layouts are compared, and have to be the same.
"""

import gc
import sys
import time

import yezhgulo

ROUNDS = 7


class Pure:
    """A printer in pure Python. A document is a `str`, or a tuple of its kind and, at last, what is in it."""

    LINE, NEST, GROUP, CONCAT = range(4)
    line = (LINE, " ")
    line_or_nil = (LINE, "")

    @staticmethod
    def nest(columns, *docs):
        return (Pure.NEST, columns, docs)

    @staticmethod
    def group(*docs):
        return (Pure.GROUP, docs)

    @staticmethod
    def concat(*docs):
        return (Pure.CONCAT, docs)

    @staticmethod
    def fits(room, docs, rest):
        """Whether `docs`, flat, and then `rest`, broken, fit into `room` columns, up to the first line break."""
        todo, flat, left = list(reversed(docs)), True, len(rest)
        while room >= 0:
            if not todo:
                if not left:
                    return True
                left -= 1
                flat = False
                todo.append(rest[left][2])
            doc = todo.pop()
            if type(doc) is str:
                room -= len(doc)
            elif doc[0] != Pure.LINE:
                todo.extend(reversed(doc[-1]))
            elif flat:
                room -= len(doc[1])
            else:
                return True
        return False

    @staticmethod
    def layout(doc, width):
        """The layout of a document."""
        out, column, work = [], 0, [(0, False, doc)]
        while work:
            indent, flat, doc = work.pop()
            if type(doc) is str:
                out.append(doc)
                column += len(doc)
                continue
            kind = doc[0]
            if kind == Pure.LINE:
                out.append(doc[1] if flat else "\n" + " " * indent)
                column = column + len(doc[1]) if flat else indent
                continue
            if kind == Pure.NEST:
                indent += doc[1]
            elif kind == Pure.GROUP and not flat:
                flat = Pure.fits(width - column, doc[-1], work)
            work.extend([(indent, flat, part) for part in reversed(doc[-1])])
        return "".join(out)


def tree(m, depth):
    """A tree with two trees below each node. `m` makes the documents."""
    if depth == 0:
        return "leaf"
    inside = m.nest(2, m.line_or_nil, tree(m, depth - 1), ",", m.line, tree(m, depth - 1))
    return m.group("node(", inside, m.line_or_nil, ")")


def rows(m, count):
    """A table of values, each row a group of a key and numbers that are all different."""
    made = []
    for i in range(count):
        numbers = m.nest(4, m.line_or_nil, str(3 * i), ",", m.line, str(3 * i + 1), ",", m.line, str(3 * i + 2))
        made += [m.group("row(", numbers, m.line_or_nil, ");"), m.line]
    return m.concat(*made)


def nodes(doc):
    """How many texts, lines, nests, groups and sequences a pure document has."""
    count, todo = 0, [doc]
    while todo:
        doc = todo.pop()
        count += 1
        if type(doc) is tuple and doc[0] != Pure.LINE:
            todo.extend(doc[-1])
    return count


def least(run):
    """The least time of a run in milliseconds, and what it answers."""
    best, result = float("inf"), None
    for _ in range(ROUNDS):
        result = None
        gc.collect()
        start = time.process_time()
        result = run()
        best = min(best, time.process_time() - start)
    return 1000 * best, result


def compare(name, make):
    """Prints the times of one document."""
    build, ours = least(lambda: make(yezhgulo))
    pure_build, pure = least(lambda: make(Pure))
    count = nodes(pure)
    for width in (40, 80):
        layout, ours_laid = least(lambda: ours.layout(width))
        pure_layout, pure_laid = least(lambda: Pure.layout(pure, width))
        assert ours_laid == pure_laid, name
        times = f"{build:8.1f} {layout:8.1f} {build + layout:8.1f} {pure_build:8.1f} {pure_layout:8.1f}"
        ratios = f"{pure_layout / (build + layout):12.1f} {pure_layout / layout:10.1f}"
        print(f"{name:6} {count:8} {width:5} {len(ours_laid):9} {times} {ratios}")


def main():
    depth = int(sys.argv[1]) if len(sys.argv) > 1 else 14
    print("                               |        ours, ms         |    pure, ms     | pure layout |  layouts")
    print("name      nodes width     bytes    build   layout     both    build   layout   / our both   pure/our")
    compare("tree", lambda m: tree(m, depth))
    compare("rows", lambda m: rows(m, 2**depth))


if __name__ == "__main__":
    main()
