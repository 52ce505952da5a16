"""Tests of the package: each construct, options, errors, depth, and the examples of the documentation.

    python3 -m unittest discover -s tests

Most layouts of `GUIDE` are those of docs/GUIDE.md. The others are worked by hand.
"""

import copy
import doctest
import io
import os
import pickle
import subprocess
import sys
import threading
import unittest

HERE = os.path.dirname(os.path.dirname(os.path.abspath(__file__)))
sys.path.insert(0, HERE)

import yezhgulo  # noqa: E402
from yezhgulo import *  # noqa: E402,F403
from yezhgulo import _library, _programs  # noqa: E402

MILLION = 1_000_000


def pair(first, last):
    return concat(first, line, last)


def call(argument):
    return group("f(", line_or_nil, argument, line_or_nil, ")")


def block(between):
    return indent(4, "{", line, "a;", between, line, "c;")


def with_body(body):
    return concat("head", hard_line, body)


# Constructs of the guide, and layouts by width.
GUIDE = {
    "group": (group(pair("a", "b")), {80: "a b", 2: "a\nb"}),
    "display width": (group(pair("42", "你好")), {7: "42 你好", 6: "42\n你好"}),
    "spaces": (group(pair("a", "b"), " " * 3, "c"), {7: "a b   c", 6: "a\nb   c"}),
    "line": (group(pair("first", "second")), {12: "first second", 11: "first\nsecond"}),
    "line_or_nil": (call("x"), {4: "f(x)", 3: "f(\nx\n)"}),
    "groups in groups": (call(group(pair("a,", "b"))), {6: "f(\na, b\n)", 3: "f(\na,\nb\n)"}),
    "what follows": (group(pair("a", "b")) + ";", {4: "a b;", 3: "a\nb;"}),
    "hard_line": (group(pair("a", "b"), hard_line, "c"), {80: "a\nb\nc", 1: "a\nb\nc"}),
    "expand_parent": (group(pair("a", "b"), expand_parent), {80: "a\nb", 3: "a\nb"}),
    "flatten": (flatten(pair("a", "b")), {80: "a b", 1: "a b"}),
    "nest": (
        group(nest(2, pair("begin", "body")), line, "end"),
        {14: "begin body end", 13: "begin\n  body\nend"},
    ),
    "dedent": (
        group(block(dedent(2, line, "b:"))),
        {10: "{ a; b: c;", 9: "{\n    a;\n  b:\n    c;"},
    ),
    "nest outside": (concat("a", hard_line, nest(2, "b")), {80: "a\nb", 0: "a\nb"}),
    "align": (
        concat("sum = ", align(group(pair("one", "+ two")))),
        {15: "sum = one + two", 14: "sum = one\n      + two"},
    ),
    "dedent_to_root": (
        block(dedent_to_root(hard_line, "#if")),
        {80: "{\n    a;\n#if\n    c;", 0: "{\n    a;\n#if\n    c;"},
    ),
    "softline": (concat("aa", softline, "bb", softline, "cc"), {7: "aa bb\ncc", 4: "aa\nbb\ncc"}),
    "fill": (fill("aa bb cc".split()), {7: "aa bb\ncc", 4: "aa\nbb\ncc"}),
    "softline_or_nil": (concat(*["=", softline_or_nil] * 3), {3: "===", 2: "==\n="}),
    "concat": (concat("a", "b", "c"), {80: "abc", 0: "abc"}),
    "join": (group(join(line, ["1", "2", "3"])), {5: "1 2 3", 4: "1\n2\n3"}),
    "flat_alt": (
        call(concat(pair("a,", "b"), flat_alt(",", nil))),
        {7: "f(a, b)", 6: "f(\na,\nb,\n)"},
    ),
    "if_flat, if_break": (group(pair("a", "b"), if_flat(";"), if_break(",")), {4: "a b;", 3: "a\nb,"}),
    "bracketed": (
        bracketed("[", ["1", bracketed("[", ["2", "3"], "]")], "]"),
        {11: "[1, [2, 3]]", 10: "[\n  1,\n  [2, 3]\n]"},
    ),
    "multiline_text": (
        group("s =", nest(2, line, multiline_text("'one\ntwo'"))),
        {80: "s =\n  'one\ntwo'", 0: "s =\n  'one\ntwo'"},
    ),
    "weak_space": (concat("a", weak_space, "b;", weak_space), {80: "a b;", 0: "a b;"}),
    "weak_line": (concat("b;", hard_line, weak_line, "c;"), {80: "b;\nc;", 0: "b;\nc;"}),
    "weak_line in a group": (group(pair("a", "b"), weak_line, "c"), {80: "a\nb\nc", 0: "a\nb\nc"}),
    "line_suffix": (
        group("a", line_suffix(" // why"), pair(",", "b")),
        {4: "a, b // why", 3: "a, // why\nb"},
    ),
    "weak_space before a suffix": (concat("a;", weak_space, line_suffix("// why")), {80: "a; // why"}),
    "union": (
        union(with_body("long body"), with_body("body")),
        {9: "head\nlong body", 8: "head\nbody"},
    ),
    "partial_union": (
        partial_union(with_body("long body"), with_body("body")),
        {4: "head\nlong body", 3: "head\nbody"},
    ),
    "a rejected suffix": (
        concat("a ", concat("long", line_suffix(" // why")) | "b"),
        {6: "a long // why", 5: "a b"},
    ),
    "if_column_is_nesting": (
        concat("let y =", softline, if_column_is_nesting("  f(x)", "f(x)")),
        {12: "let y = f(x)", 11: "let y =\n  f(x)"},
    ),
    "if_column_at_most": (
        call(concat(pair("a,", "b"), if_column_at_most(3, ",", ""))),
        {7: "f(a, b)", 6: "f(\na,\nb,\n)"},
    ),
    "fail": (group(pair("a", "b"), flat_alt(fail, nil)) | "c", {3: "a b", 2: "c"}),
}


# What is its own `repr`.
REPRS = (
    "nil",
    "fail",
    "weak_space",
    "line",
    "line_or_nil",
    "softline",
    "softline_or_nil",
    "hard_line",
    "weak_line",
    "expand_parent",
    "text('it\\n')",
    "ascii_text('a')",
    "text_of_width('語', 2)",
    "multiline_text('a\\nb')",
    "concat()",
    "concat('a', line, concat('b', 'c'))",
    "group('f(', nest(-2, line_or_nil, 'x'), ')')",
    "flatten(align(dedent_to_root(line_suffix(group()))))",
    "flat_alt(',', nil)",
    "union(group('a', line), partial_union('b', fail))",
    "if_column_at_most(1, 'a', 'b')",
    "if_column_at_least(18446744073709551615, 'a', 'b')",
    "if_column_is_nesting('a', 'b')",
    "if_nesting_at_most(3, 'a', 'b')",
    "if_nesting_at_least(4, 'a', 'b')",
)


class Guide(unittest.TestCase):
    def test_layouts(self):
        for name, (doc, layouts) in GUIDE.items():
            for width, layout in layouts.items():
                with self.subTest(name, width=width):
                    self.assertEqual(doc.layout(width), layout)

    def test_options(self):
        lines = nest(2, "a", hard_line, hard_line, "b")
        self.assertEqual(lines.layout(), "a\n  \n  b")
        self.assertEqual(lines.layout(deferred=True), "a\n\n  b")
        self.assertEqual(lines.layout(crlf=True, deferred=True), "a\r\n\r\n  b")

    def test_failing(self):
        with self.assertRaises(LayoutError) as caught:
            concat("a", fail, "b").layout()
        self.assertEqual(caught.exception.before, "a")


class Constructs(unittest.TestCase):
    """What the guide does not show."""

    def lays(self, doc, width, layout):
        self.assertEqual(doc.layout(width), layout)

    def test_nothing(self):
        for doc in (nil, text(""), concat(), join(",", []), group(), nest(2), fill([]), text("") + nil):
            self.lays(doc, 80, "")

    def test_widths_of_texts(self):
        # Each is three bytes, and two columns.
        self.lays(group(text("語"), line, "b"), 4, "語 b")
        self.lays(group(ascii_text("語"), line, "b"), 4, "語\nb")
        self.lays(group(text_of_width("語", 1), line, "b"), 3, "語 b")
        self.lays(group(text_of_width("a", 2**64 - 2), line, "b"), 2**64 - 2, "a\nb")

    def test_multiline_text_of_one_line(self):
        self.lays(group(multiline_text("a"), line, "b"), 3, "a b")

    def test_a_payload_keeps_its_line_ends(self):
        self.assertEqual((hard_line + multiline_text("a\rb\nc")).layout(crlf=True), "\r\na\rb\nc")

    def test_operators(self):
        self.lays("a" + text("b") + "c", 80, "abc")
        self.lays(sum([text("a"), text("b")], nil), 80, "ab")
        self.lays("long" | text("b"), 2, "b")
        self.lays(text("long") | "b" | "c", 0, "c")
        for wrong in (3, None, [], b"a"):
            with self.assertRaises(TypeError):
                text("a") + wrong
            with self.assertRaises(TypeError):
                wrong | text("a")

    def test_choices(self):
        column = [if_column_at_most(n, "y", "n") for n in (1, 2)] + [if_column_at_least(n, "y", "n") for n in (2, 3)]
        for doc, layout in zip(column, ["aan", "aay", "aay", "aan"]):
            self.lays("aa" + doc, 80, layout)
        nesting = [if_nesting_at_most(n, "y", "n") for n in (1, 2)] + [if_nesting_at_least(n, "y", "n") for n in (2, 3)]
        for doc, layout in zip(nesting, "nyyn"):
            self.lays(nest(2, doc), 80, layout)
        self.lays(concat("a", if_column_is_nesting("y", "n")), 80, "an")

    def test_bracketed(self):
        self.lays(bracketed("[", [], "]", trailing=True), 0, "[]")
        self.lays(bracketed("{", ["a", "b"], "}", edge=line, separator=";"), 8, "{ a; b }")
        self.lays(bracketed("{", iter(["a", "b"]), "}", indent=1, trailing=True), 5, "{\n a,\n b,\n}")
        self.lays(bracketed("{", ["a", "b"], "}", trailing=True), 6, "{a, b}")

    def test_if_break_of_several(self):
        self.lays(group("a", if_break("x", hard_line, "y"), line, "b"), 3, "a b")
        self.lays(concat("a", if_break("x", "y"), if_flat("z", "z")), 80, "axy")

    def test_iterables_are_read_once(self):
        self.lays(join(", ", (str(i) for i in range(3))), 80, "0, 1, 2")

    def test_a_str_is_no_list(self):
        functions = {
            "docs is an iterable of documents, not a str (its words are s.split())": fill,
            "docs is an iterable of documents, not a str (join takes the separator first)": lambda s: join([s], s),
            "docs is an iterable of documents, not a str": lambda s: bracketed("[", s, "]"),
        }
        for message, function in functions.items():
            with self.assertRaises(TypeError) as caught:
                function("ab")
            self.assertEqual(str(caught.exception), message)
        with self.assertRaisesRegex(TypeError, "not a Doc"):
            join(",", line)

    def test_subclasses_of_str(self):
        class Odd(str):
            def __hash__(self):
                return 1

            def __eq__(self, other):
                return True

        self.lays(concat(Odd("a"), Odd("b"), "c"), 80, "abc")
        self.lays(text(Odd("d")) + Odd("e"), 80, "de")
        self.lays(text("Odd"), 80, "Odd")

    def test_long_texts(self):
        long = "x" * 5000
        self.lays(group(long, line, "b"), 5002, long + " b")
        self.lays(text(long) + "y" + text(long), 80, long + "y" + long)
        self.lays(nest(1, text(long), hard_line, long), 80, long + "\n " + long)
        self.lays(flat_alt("a", long), 80, "a")

    def test_many_texts(self):
        words = [str(i) for i in range(10_000)]
        self.lays(join("", words), 80, "".join(words))

    def test_no_text(self):
        for wrong, kind in ((3, "int"), (None, "NoneType"), (b"a", "bytes"), (text("a"), "Doc")):
            for function in (text, ascii_text, multiline_text, lambda s: text_of_width(s, 1)):
                with self.assertRaises(TypeError) as caught:
                    function(wrong)
                self.assertEqual(str(caught.exception), f"a text is a str, not {kind}")
                self.assertTrue(caught.exception.__suppress_context__)

    def test_no_document(self):
        with self.assertRaisesRegex(TypeError, "a Doc or a str, not int") as caught:
            group("a", 3)
        self.assertTrue(caught.exception.__suppress_context__)
        with self.assertRaisesRegex(TypeError, "a Doc or a str, not NoneType"):
            nest(2, None)
        with self.assertRaisesRegex(TypeError, "a Doc or a str, not function"):
            concat(group, "a")
        with self.assertRaises(TypeError):
            Doc("a")


class Values(unittest.TestCase):
    def test_documents_compare_by_identity(self):
        doc = text("a")
        self.assertEqual({doc, doc}, {doc})
        self.assertNotEqual(doc, text("a"))

    def test_documents_are_shared(self):
        word = group("a", line, "b")
        both = word + ";" + word
        self.assertEqual(both.layout(5), "a b;a\nb")
        self.assertEqual(word.layout(3), "a b")
        # A longer document leaves those that it is made of as they were.
        start = text("x" * 2000)
        longer = start + "y"
        self.assertEqual((longer + "z").layout()[1999:], "xyz")
        self.assertEqual((longer + "w").layout()[1999:], "xyw")
        self.assertEqual(start.layout()[1999:], "x")

    def test_copies(self):
        for doc in (group("a", line, "b"), concat(*[group("a", line, "b")] * 1000)):
            self.assertIs(copy.copy(doc), doc)
            self.assertIs(copy.deepcopy([doc])[0], doc)
            self.assertEqual(pickle.loads(pickle.dumps(doc)).layout(3), doc.layout(3))

    def test_str_and_repr(self):
        doc = group("a" * 40, line, "b" * 39)
        self.assertEqual(str(doc), doc.layout(80))
        self.assertEqual(f"{doc}", "a" * 40 + " " + "b" * 39)

    def test_repr_is_the_calls(self):
        for calls in REPRS:
            self.assertEqual(repr(eval(calls)), calls)
        self.assertEqual(repr("a" + text("b") + line), "concat('a', 'b', line)")
        self.assertEqual(repr("a" + (text("b") + "c")), "concat('a', concat('b', 'c'))")
        self.assertEqual(repr(space), "text(' ')")
        self.assertEqual(repr(group(line)), "softline")
        self.assertEqual(repr(group(text("a") + "b")), "group('a', 'b')")

    def test_repr_of_a_long_document(self):
        self.assertEqual(repr(text("x" * 4091)), f"text({'x' * 4091!r})")
        self.assertEqual(repr(text("x" * 4092)), "<Doc of more than 4096 bytes>")
        doubled = text("x")
        for _ in range(60):
            doubled += doubled
        self.assertEqual(repr(doubled), "<Doc of more than 4096 bytes>")

    def test_print(self):
        file = io.StringIO()
        group("a", line, "b").print(2, file=file, crlf=True, end="!")
        self.assertEqual(file.getvalue(), "a\r\nb!")
        with self.assertRaises(LayoutError):
            concat("a", fail).print(file=file)
        self.assertEqual(file.getvalue(), "a\r\nb!")

    def test_threads(self):
        doc = bracketed("[", map(str, range(20_000)), "]")
        layouts = [None] * 4

        def run(i):
            layouts[i] = doc.layout(40 + i)

        threads = [threading.Thread(target=run, args=(i,)) for i in range(4)]
        for thread in threads:
            thread.start()
        for thread in threads:
            thread.join()
        self.assertEqual(layouts, ["[\n  " + ",\n  ".join(map(str, range(20_000))) + "\n]"] * 4)


class Errors(unittest.TestCase):
    def test_layout_error(self):
        for doc in (fail, flatten("b", hard_line), flatten("b", multiline_text("x\ny"))):
            with self.assertRaises(LayoutError) as caught:
                nest(2, "語a", hard_line, doc).layout()
            self.assertIsInstance(caught.exception, YezhguloError)
            self.assertTrue(caught.exception.before.startswith("語a\n  "))
        why = "no layout: a `fail`, or a hard line or payload under `flatten`, in line 2 after "
        self.assertEqual(str(LayoutError("a\nb")), why + "'b'")
        self.assertEqual(str(LayoutError("a\n" + "b" * 61)), why + f"'...{'b' * 57}'")

    def test_all_that_comes_before_a_failure(self):
        # The layout before is longer than twice the program, so it has to be asked for again.
        with self.assertRaises(LayoutError) as caught:
            nest(1000, "a", hard_line, "b", fail).layout()
        self.assertEqual(caught.exception.before, "a\n" + " " * 1000 + "b")

    def test_limit(self):
        doc = text("ab") + "語"
        self.assertEqual(doc.layout(limit=5), "ab語")
        for limit, before in ((4, "ab"), (2, "ab"), (1, "a")):
            with self.assertRaises(LimitError) as caught:
                doc.layout(limit=limit)
            self.assertEqual((caught.exception.limit, caught.exception.before), (limit, before))

    def test_a_limit_bounds_a_layout_without_end(self):
        with self.assertRaises(LimitError) as caught:
            nest(2**60, hard_line, "a").layout(limit=100_000)
        self.assertEqual(caught.exception.before, "\n" + " " * 99_999)

    def test_a_layout_that_is_longer_than_was_guessed(self):
        self.assertEqual(nest(10_000, hard_line, "a").layout(), "\n" + " " * 10_000 + "a")

    def refuses(self, function, wrong, kind, message):
        with self.assertRaises(kind) as caught:
            function(wrong)
        self.assertEqual(str(caught.exception), message)
        self.assertTrue(caught.exception.__context__ is None or caught.exception.__suppress_context__)

    def test_numbers(self):
        doc = text("a")
        self.assertEqual(doc.layout(2**64 - 1, limit=2**64 - 1), "a")
        calls = [
            ("width", 0, lambda n: doc.layout(n)),
            ("width", 0, lambda n: text_of_width("a", n)),
            ("limit (None is for no limit)", 1, lambda n: doc.layout(limit=n)),
            ("column", 0, lambda n: if_column_at_most(n, "a", "b")),
            ("column", 0, lambda n: if_column_at_least(n, "a", "b")),
            ("columns", 0, lambda n: if_nesting_at_most(n, "a", "b")),
            ("columns", 0, lambda n: if_nesting_at_least(n, "a", "b")),
        ]
        for name, least, function in calls:
            for wrong in (-1, least - 1, 2**64):
                self.refuses(function, wrong, ValueError, f"{name} is from {least} to {2**64 - 1}, not {wrong}")
            for wrong in ("20", 1.0):
                self.refuses(function, wrong, TypeError, f"{name} is an int, not {type(wrong).__name__}")

    def test_numbers_of_indents(self):
        calls = [
            ("columns", lambda n: nest(n, line)),
            ("columns", lambda n: indent(n, line)),
            ("columns", lambda n: dedent(n, line)),
            ("indent", lambda n: bracketed("[", ["1"], "]", indent=n)),
        ]
        for name, function in calls:
            for wrong in ("a", 1.0):
                self.refuses(function, wrong, TypeError, f"{name} is an int, not {type(wrong).__name__}")
        for wrong in (-(2**63) - 1, 2**63):
            self.refuses(lambda n: nest(n, "a"), wrong, ValueError, f"columns is from -2**63 to 2**63 - 1, not {wrong}")

    def test_surrogates(self):
        for function in (text, ascii_text, multiline_text, group, lambda s: nil + s, lambda s: text_of_width(s, 1)):
            with self.assertRaises(UnicodeEncodeError):
                function("a\ud800")

    def test_bad_programs(self):
        faults = {b"\xff": 16, b"\x10": 17, b"\x10\x01\0\0\0\xff": 18, b"\x20": 19, b"\x41": 20, b"\x40": 21}
        for program, status in faults.items():
            with self.assertRaises(ProgramError) as caught:
                _library.layout(program, 80, False, False, None)
            self.assertEqual(caught.exception.status, status)
            self.assertIn(f"status {status}: ", str(caught.exception))

    def test_errors_are_pickled(self):
        of_texts = (JsonError(1, 2, "a value"), TomlError(1, 2, "a key"))
        for error in (LayoutError("a"), LimitError(1, "a"), *of_texts, ProgramError(16)):
            again = pickle.loads(pickle.dumps(error))
            self.assertEqual((type(again), str(again), vars(again)), (type(error), str(error), vars(error)))


# The program has 18 MB, and its nodes have more than the 120 MB that may be taken after it is made.
REFUSED = """
import resource
import yezhgulo
doc = yezhgulo.concat(*["x"] * 3_000_000)
used = 1024 * int(open("/proc/self/status").read().split("VmSize:")[1].split()[0])
resource.setrlimit(resource.RLIMIT_AS, (used + 120_000_000, resource.RLIM_INFINITY))
try:
    doc.layout()
except MemoryError as error:
    print(error)
print(yezhgulo.text("goes on"))
"""


class Memory(unittest.TestCase):
    def test_refused(self):
        environment = {**os.environ, "PYTHONPATH": HERE}
        command = [sys.executable, "-c", REFUSED]
        output = subprocess.run(command, env=environment, stdout=subprocess.PIPE, check=True).stdout.decode()
        self.assertEqual(output, "the layout was refused memory\ngoes on\n")


class Texts:
    """What the formatters of both languages do.

    A class of tests has a formatter and its error, a short text with its layout, a text with a lone surrogate, and
    texts that are refused, with the place and what was expected there.
    """

    def test_errors(self):
        for text, (row, column, expected) in self.refused.items():
            with self.subTest(text), self.assertRaises(self.error) as caught:
                self.format(text)
            error = caught.exception
            self.assertEqual((error.line, error.column, error.expected), (row, column, expected))
            self.assertEqual(str(error), f"line {row}, column {column}: expected {expected}")
            self.assertIsInstance(error, ValueError)

    def test_limit(self):
        text, layout = self.short
        self.assertEqual(self.format(text, limit=len(layout)), layout)
        with self.assertRaises(LimitError) as caught:
            self.format(text, limit=len(layout) - 1)
        self.assertEqual(caught.exception.before, layout[:-1])

    def test_numbers(self):
        for options in ({"width": -1}, {"indent": -1}, {"indent": 2**32}, {"limit": 0}):
            with self.assertRaises(ValueError):
                self.format(self.short[0], **options)

    def test_types(self):
        with self.assertRaises(UnicodeEncodeError):
            self.format(self.surrogate)
        for wrong in (3, None, [self.short[0]]):
            with self.assertRaises(TypeError):
                self.format(wrong)


class Json(Texts, unittest.TestCase):
    format = staticmethod(format_json)
    error = JsonError
    short = ("[1]", "[1]\n")
    surrogate = '"\ud800"'
    refused = {
        '{"a": [1,\n 2 3]}': (2, 4, "`,` or `]`"),
        "": (1, 1, "a value"),
        "[": (1, 2, "a value or `]`"),
        "[tru]": (1, 2, "a value or `]`"),
        '{"語" 1}': (1, 6, "`:`"),
        "[" * 100_001: (1, 100_001, "at most 100,000 levels of nesting"),
        b"[\xff]": (1, 2, "UTF-8"),
    }

    def test_layouts(self):
        text = '{"name":"Ada","list":[1,22,333],"empty":{}}'
        layout = '{\n  "name": "Ada",\n  "list": [1, 22, 333],\n  "empty": {}\n}\n'
        self.assertEqual(format_json(text, 24), layout)
        self.assertEqual(format_json(text.encode(), 24, indent=0), layout.replace("  ", ""))
        self.assertEqual(format_json('["語"]'), '["語"]\n')

    def test_blank_lines(self):
        text = '{"a":\n\n1,\n\n\n"b": [2,\n\n3]\n\n}'
        self.assertEqual(format_json(text, 13), '{\n  "a": 1,\n  "b": [2, 3]\n}\n')
        self.assertEqual(format_json(text, 13, keep_blank_lines=True), '{\n  "a": 1,\n\n  "b": [2, 3]\n}\n')
        self.assertEqual(format_json(text, 80, keep_blank_lines=True), '{"a": 1, "b": [2, 3]}\n')

    def test_a_layout_that_is_longer_than_was_guessed(self):
        text = "[" * 128 + "1" + "]" * 128
        begin = "".join(" " * 1000 * i + "[\n" for i in range(128))
        end = "".join("\n" + " " * 1000 * i + "]" for i in reversed(range(128)))
        self.assertEqual(format_json(text, 0, indent=1000), begin + " " * 128_000 + "1" + end + "\n")


class Toml(Texts, unittest.TestCase):
    format = staticmethod(format_toml)
    error = TomlError
    short = ("a=1", "a = 1\n")
    surrogate = 'a = "\ud800"'
    refused = {
        "a = [1,\n 2 3]": (2, 4, "`,` or `]`"),
        "a = ": (1, 5, "a value"),
        "a": (1, 2, "`.` or `=`"),
        "a = {": (1, 6, "a key or `}`"),
        "a = 1 2": (1, 7, "the end of the line"),
        '"語" 1': (1, 5, "`.` or `=`"),
        "a = " + "[" * 129 + "]" * 129: (1, 133, "at most 128 levels of nesting"),
        b"a = 1\n# \xff": (2, 3, "UTF-8"),
    }

    def test_layouts(self):
        text = '# first\nname="Ada"\nlist=[1,22,333]#last\n[ empty ]\n'
        broken = "[\n  1, 22, 333,\n]"
        layout = f'# first\nname = "Ada"\nlist = {broken} #last\n[empty]\n'
        self.assertEqual(format_toml(text, 16), layout)
        self.assertEqual(format_toml(text.encode(), 16, indent=0), layout.replace("  ", ""))
        self.assertEqual(format_toml(text), layout.replace(broken, "[1, 22, 333]"))
        self.assertEqual(format_toml('"語"="語"'), '"語" = "語"\n')

    def test_line_ends(self):
        self.assertEqual(format_toml("a=1\r\nb=2"), "a = 1\r\nb = 2\r\n")
        self.assertEqual(format_toml("a=1\nb=2\r\n"), "a = 1\nb = 2\n")
        self.assertEqual(format_toml(""), "")

    def test_a_layout_that_is_longer_than_was_guessed(self):
        line = lambda level, text: " " * 1000 * level + text + "\n"
        layout = "a = [\n" + line(1, "[") + line(2, "1,") + line(1, "],") + "]\n"
        self.assertEqual(format_toml("a=[[1]]", 0, indent=1000), layout)


class Depth(unittest.TestCase):
    """A million levels are built, laid out, and dropped with the name `doc`."""

    def lays(self, step, layout, width=80):
        doc = text("x")
        for _ in range(MILLION):
            doc = step(doc)
        self.assertTrue(doc.layout(width) == layout)

    def test_appended_after(self):
        self.lays(lambda doc: doc + "y", "x" + "y" * MILLION)

    def test_appended_before(self):
        self.lays(lambda doc: "y" + doc, "y" * MILLION + "x")

    def test_around(self):
        self.lays(lambda doc: concat("(", doc, ")"), "(" * MILLION + "x" + ")" * MILLION)

    def test_groups(self):
        self.lays(group, "x")

    def test_groups_with_lines(self):
        self.lays(lambda doc: group("(", line_or_nil, doc), "(\n" * MILLION + "x", 0)

    def test_nests(self):
        self.lays(lambda doc: nest(1, doc), "x")

    def test_suffixes(self):
        self.lays(line_suffix, "x")

    def test_first_alternatives(self):
        self.lays(lambda doc: doc | "y", "x")

    def test_second_alternatives(self):
        self.lays(lambda doc: flat_alt(doc, "y"), "x")
        self.lays(lambda doc: "long" | doc, "x", 1)

    def test_choices(self):
        self.lays(lambda doc: if_column_at_least(1, "y", doc), "x")

    def test_wide(self):
        self.assertTrue(join(",", ["x"] * MILLION).layout() == "x" + ",x" * (MILLION - 1))

    def test_every_beginning_kept(self):
        docs = [nil]
        for _ in range(100_000):
            docs.append(docs[-1] + "x")
        self.assertEqual(docs[70_000].layout(), "x" * 70_000)

    def test_a_deep_document_is_copied_and_pickled(self):
        doc = text("x")
        for _ in range(200_000):
            doc = "y" + doc
        self.assertIs(copy.deepcopy(doc), doc)
        self.assertTrue(pickle.loads(pickle.dumps(doc)).layout() == "y" * 200_000 + "x")
        self.assertEqual(repr(doc), "<Doc of more than 4096 bytes>")


class Names(unittest.TestCase):
    def test_what_is_exported(self):
        self.assertEqual(len(set(yezhgulo.__all__)), len(yezhgulo.__all__))
        for name in yezhgulo.__all__:
            self.assertTrue(hasattr(yezhgulo, name), name)

    def test_what_help_shows(self):
        """Each constant is in the table, and each function has an example."""
        for name in yezhgulo.documents.__all__:
            value = getattr(yezhgulo, name)
            if isinstance(value, Doc):
                self.assertRegex(yezhgulo.documents.__doc__, rf"\n    {name} ")
            elif name != "DocLike":
                self.assertIn(">>> ", value.__doc__, name)


def load_tests(loader, tests, pattern):
    """The tests above, and the examples of the documentation."""
    modules = [yezhgulo, yezhgulo.documents, yezhgulo.errors, yezhgulo.json_text, yezhgulo.toml_text]
    modules.append(yezhgulo.values)
    tests.addTests(doctest.DocTestSuite(module) for module in modules)
    tests.addTest(doctest.DocFileSuite(os.path.join(HERE, "README.md"), module_relative=False))
    return tests


if __name__ == "__main__":
    unittest.main()
