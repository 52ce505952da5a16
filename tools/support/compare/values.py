"""JSON files before and after `jsonfmt` lays them out, as Python's json reads them: numbers as they are spelled, members in
order, doubles of keys kept.

Files that it does not read as UTF-8 JSON, and those that `jsonfmt` refuses, as for how deep they are, are counted apart.
"""

import json

from support.command import read
from support.compare.files import files, ran, said

WIDTHS = ("20", "80")


def value(text):
    """What Python reads, with numbers and names as they are spelled."""
    word = lambda spelled: ("number", spelled)  # noqa: E731
    how = {"parse_int": word, "parse_float": word, "parse_constant": lambda it: 1 / 0}
    return json.loads(text, object_pairs_hook=lambda it: ("object", it), **how)


def compare(program, options):
    same, unread, refused, differ = 0, 0, 0, 0
    for path in files(options.files, ".json"):
        try:
            before = value(read(path))
        except Exception:
            unread += 1
            continue
        for width in WIDTHS:
            ended = ran(program, b"", "--width", width, path)
            is_same = not ended.returncode and value(ended.stdout.decode()) == before
            same, refused = same + is_same, refused + bool(ended.returncode)
            differ += not is_same and not ended.returncode
            if not is_same:
                print(f"{path}: {f'refused: {said(ended)}' if ended.returncode else f'another value at width {width}'}")
    return f"{same} layouts with the same value, {differ} with another, {refused} refused; {unread} files are no JSON", differ
