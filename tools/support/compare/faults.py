"""JSON texts broken at random: the place where `jsonfmt` finds that they are none, beside the one that Python's json names.

Where a lexeme is none itself, as `01`, `jsonfmt` names where it begins, and Python a place within it or its end. Of a string
without an end Python names the beginning, as `jsonfmt` does at the end of its message. It is a difference where only one of
the two takes a text, or where `jsonfmt` names a later place.
"""

import collections
import json
import random

from support.compare.files import ran, said

LEAVES = ["1", '"s"', "true", "null", "-2.5e3"]
PIECES = ["{", "}", "[", "]", ",", ":", '"a"', "1", "true", " ", "\n", "é", "01", '"x', "1e", "nul", "\\"]


def text_of(depth):
    """A JSON text that is at most so deep."""
    kind = random.random()
    if depth == 0 or kind < 0.3:
        return random.choice(LEAVES)
    members = [text_of(depth - 1) for _ in range(random.randrange(4))]
    if kind < 0.65:
        return "[" + ", ".join(members) + "]"
    return "{" + ",\n".join(f'"k{at}": {it}' for at, it in enumerate(members)) + "}"


def broken(text):
    """The text with a piece more, a character less, or cut off, once or twice."""
    for _ in range(random.choice([1, 1, 2])):
        at, kind = random.randrange(len(text) + 1), random.random()
        if kind < 0.4:
            text = text[:at] + random.choice(PIECES) + text[at:]
        else:
            text = text[:at] + (text[at + 1 :] if kind < 0.8 else "")
    return text


def place_of_python(text):
    """The line and the column that Python names, and None where it takes the text."""
    try:
        json.loads(text, parse_constant=lambda word: json.loads(""))
    except json.JSONDecodeError as error:
        return error.lineno, error.colno
    return None


def place_of_program(program, text):
    ended = ran(program, text.encode())
    if ended.returncode == 0:
        return None
    message = said(ended)
    place = message.split(":")[1:3]
    if "found the end of the text, opened at" in message and "closing quote" in message:
        place = message.split("opened at ")[1].split(":")
    return int(place[0]), int(place[1])


def compare(program, options):
    random.seed(options.seed)
    kinds = collections.Counter()
    for _ in range(options.texts):
        text = broken(text_of(3))
        found, wanted = place_of_program(program, text), place_of_python(text)
        is_earlier = found and wanted and found < wanted
        kind = ("same" if found else "JSON") if found == wanted else "earlier" if is_earlier else "elsewhere"
        kinds[kind] += 1
        if kind == "elsewhere":
            print(f"{text!r}: {found}, and {wanted} by Python")
    places = f"{kinds['same']} faults at the same place, {kinds['earlier']} at the beginning of a lexeme that is none"
    return f"{kinds['JSON']} texts are JSON, {places}, {kinds['elsewhere']} elsewhere", kinds["elsewhere"]
