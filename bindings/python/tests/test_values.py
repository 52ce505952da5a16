"""Tests of the layouts of values of Python. They are worked by hand; a flat one is what `repr` shows."""

import enum
import io
import os
import sys
import unittest
from collections import Counter, OrderedDict, defaultdict, deque, namedtuple
from dataclasses import dataclass, field

HERE = os.path.dirname(os.path.dirname(os.path.abspath(__file__)))
sys.path.insert(0, HERE)

from yezhgulo import Doc, concat, group, line, pformat, pprint, pretty  # noqa: E402


@dataclass
class Point:
    x: int
    y: int = 0
    name: str = field(default="", repr=False)


@dataclass
class Named:
    x: int

    def __repr__(self):
        return f"<Named {self.x}>"


class Colour(enum.Enum):
    RED = 1


class Level(enum.IntEnum):
    LOW = 1


class Mode(enum.Flag):
    READ = 1
    WRITE = 2


class Own(enum.Enum):
    ONE = 1

    def __repr__(self):
        return "own"


class Listed(list):
    pass


class Shouting(list):
    def __repr__(self):
        return "LOUD"


class Lines:
    def __repr__(self):
        return "one\n\ntwo"


class Pair:
    def __init__(self, first, second):
        self.first, self.second = first, second

    def __pretty__(self):
        return group(pretty(self.first), " ~", line, pretty(self.second))


Place = namedtuple("Place", "line column")

FLAT = (
    None,
    1.5,
    "it's",
    b"\x00",
    [],
    [1, [2, []]],
    (),
    (1,),
    (1, (2,)),
    {},
    {"a": 1, (2, 3): {4: None}},
    set(),
    {1},
    frozenset(),
    frozenset({1}),
    Point(1, 2, "left out"),
    [Named(1)],
    Place(1, [2]),
    Listed([1]),
    Shouting([1]),
    Own.ONE,
    deque(),
    deque([1, 2], maxlen=2),
    defaultdict(list, {1: [2]}),
    defaultdict(None),
    OrderedDict(),
    Counter(),
    Counter("abb"),
    [int, Point, ...],
)


class Values(unittest.TestCase):
    def test_flat_is_as_repr(self):
        for value in FLAT:
            self.assertEqual(pformat(value, 1000), repr(value))

    def test_enums_have_names(self):
        self.assertEqual(pformat([Colour.RED, Level.LOW, Mode.READ]), "[Colour.RED, Level.LOW, Mode.READ]")

    def test_the_items_of_a_set_are_in_order(self):
        self.assertEqual(pformat({10, 9, 8}), "{8, 9, 10}")
        self.assertEqual(pformat({1, "a", None}), "{'a', 1, None}")
        self.assertEqual(pformat(frozenset("ba"), 12), "frozenset({\n    'a',\n    'b',\n})")

    def test_broken(self):
        for value, width, layout in (
            ([1, 22], 6, "[\n    1,\n    22,\n]"),
            ((1,), 3, "(\n    1,\n)"),
            ((1, 2), 5, "(\n    1,\n    2,\n)"),
            ({"a": [1, 2]}, 12, "{\n    'a': [\n        1,\n        2,\n    ],\n}"),
            (Point(1, 2), 14, "Point(\n    x=1,\n    y=2,\n)"),
            (Place(1, 2), 10, "Place(\n    line=1,\n    column=2,\n)"),
            (deque([1, 2], maxlen=2), 8, "deque([\n    1,\n    2,\n], maxlen=2)"),
            (defaultdict(int, {1: 2}), 9, "defaultdict(<class 'int'>, {\n    1: 2,\n})"),
            (OrderedDict(a=1), 9, "OrderedDict({\n    'a': 1,\n})"),
            (Counter("abb"), 9, "Counter({\n    'b': 2,\n    'a': 1,\n})"),
        ):
            self.assertEqual(pformat(value, width), layout)

    def test_a_repr_of_several_lines(self):
        self.assertEqual(pformat({"k": Lines()}), "{\n    'k': one\n\n         two,\n}")

    def test_a_lone_surrogate_of_a_repr(self):
        class Odd:
            def __repr__(self):
                return "\ud800"

        self.assertEqual(pformat(Odd()), "\\ud800")

    def test_classes_of_their_own(self):
        self.assertEqual(pformat([Pair(1, Pair(2, 3))], 13), "[1 ~ 2 ~ 3]")
        self.assertEqual(pformat([Pair(10, "xy")], 11), "[10 ~ 'xy']")
        self.assertEqual(pformat([Pair(10, "xy")], 10), "[\n    10 ~\n    'xy',\n]")
        self.assertEqual(pformat(Pair), repr(Pair))
        self.assertIsInstance(pretty(Pair(1, 2)), Doc)

    def test_what_pretty_answers_is_a_document(self):
        class Worded:
            def __pretty__(self):
                return "a text"

        class Wrong:
            def __pretty__(self):
                return 1

        self.assertEqual(pformat([Worded()]), "[a text]")
        with self.assertRaises(TypeError):
            pretty(Wrong())

    def test_a_value_in_itself(self):
        value = [1]
        value.append({"self": value})
        self.assertEqual(pformat(value), repr(value))
        held = {}
        held["self"] = [held]
        self.assertEqual(pformat(held), repr(held))
        twice = [[]] * 2
        self.assertEqual(pformat(twice), "[[], []]")

    def test_depth(self):
        value = []
        for _ in range(50_000):
            value = [value]
        self.assertEqual(pformat(value, 200_000), "[" * 50_001 + "]" * 50_001)

    def test_printing(self):
        file = io.StringIO()
        pprint([1, 2], 5, file=file, end="!")
        self.assertEqual(file.getvalue(), "[\n    1,\n    2,\n]!")

    def test_in_a_document(self):
        self.assertEqual(concat("x = ", pretty([1, 2])).layout(10), "x = [1, 2]")


if __name__ == "__main__":
    unittest.main()
