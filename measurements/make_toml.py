#!/usr/bin/env python3
"""Writes a TOML text of about so many megabytes: tables and arrays of tables with comments, strings of all four kinds, numbers,
dates, arrays in arrays, inline tables, and texts that are not ASCII.

usage: make_toml.py MEGABYTES > FILE
       make_toml.py deep NUMBER > FILE     (so many arrays in one another)
"""
import random
import sys

NAMES = ["Ada", "Grace", "Édith", "林檎", "O'Neil"]
TAGS = ['"new"', "'old'", '"a longer tag"', '"\\t"', '"\\u00e9"']


def record(rng, number):
    """A table as a configuration might have it, with the names that its number makes its own."""
    tags = ", ".join(rng.choice(TAGS) for _ in range(rng.randrange(8)))
    lines = [
        f"# The table number {number}." if number % 3 == 0 else "",
        f"[[tables]]" if number % 2 else f"[table.number-{number}]",
        f"id={number}",
        f'name   = "{rng.choice(NAMES)}"  # as it is written',
        f"active = {'true' if rng.random() < 0.5 else 'false'}",
        f"score = {rng.uniform(-1e3, 1e3):.6f}",
        f"mask = {rng.randrange(1 << 32):#x}",
        f"since = {rng.randrange(1970, 2030)}-05-{rng.randrange(1, 31):02} 07:32:00Z",
        f"position = {{ x = {rng.uniform(-180, 180):.7f}, y={rng.uniform(-90, 90):.7f} }}",
        f"tags = [{tags}]",
        f"parents.first = [[{rng.randrange(number + 1)}, {rng.randrange(number + 1)}], [ ]]",
    ]
    if number % 5 == 0:
        lines += ["members = [", "  1, # one", "  # two is left out", "  3", "]"]
    if number % 7 == 0:
        lines += ['text = """', "Several lines,", '  with "quotes".', '"""', "path = 'C:\\names'"]
    return "\n".join(lines) + "\n\n"


def main():
    if sys.argv[1] == "deep":
        count = int(sys.argv[2])
        print("a = " + "[" * count + "]" * count)
        return
    wanted, written, number = int(sys.argv[1]) * 1_000_000, 0, 0
    rng = random.Random(1)
    while written < wanted:
        text = record(rng, number)
        sys.stdout.write(text)
        written += len(text.encode())
        number += 1


main()
