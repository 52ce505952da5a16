"""Reads cases on standard input, one a line as docs/CASES.md has them, and answers each with what its layout comes to.

    python3 tests/replay.py < ../../crates/replay/stdin

A case is answered with `ok HEX` or `fail HEX`, and a line that is no case with `error`. Each document is made by
the functions of the package, node by node. Nothing calls itself on a document, so it may be of any depth.
"""

import os
import re
import sys

sys.path.insert(0, os.path.dirname(os.path.dirname(os.path.abspath(__file__))))

import yezhgulo as y  # noqa: E402

LEAVES = {
    "nil": y.nil,
    "fail": y.fail,
    "ws": y.weak_space,
    "hl": y.hard_line,
    "wl": y.weak_line,
    "exp": y.expand_parent,
}
OVER_ONE = {
    "grp": y.group,
    "flat": y.flatten,
    "align": y.align,
    "root": y.dedent_to_root,
    "sfx": y.line_suffix,
}
OVER_TWO = {
    "app": y.Doc.__add__,
    "bof": y.flat_alt,
    "uni": y.union,
    "puni": y.partial_union,
}
CHOICES = {
    ("oncol", "atmost"): y.if_column_at_most,
    ("oncol", "atleast"): y.if_column_at_least,
    ("onnest", "atmost"): y.if_nesting_at_most,
    ("onnest", "atleast"): y.if_nesting_at_least,
}


class NoCase(Exception):
    """The line is no case."""


def number(word):
    if not re.fullmatch("[0-9]+", word) or int(word) >= 2**64:
        raise NoCase(word)
    return int(word)


def offset(word):
    if not re.fullmatch("-?[0-9]+", word) or not -(2**63) <= int(word) < 2**63:
        raise NoCase(word)
    return int(word)


def words_of(word):
    """The text of a word in hexadecimal."""
    if word == "-":
        return ""
    if not re.fullmatch("([0-9a-f]{2})+", word):
        raise NoCase(word)
    try:
        return bytes.fromhex(word).decode("utf-8")
    except UnicodeDecodeError:
        raise NoCase(word) from None


def payload(word):
    text = words_of(word)
    if "\n" not in text and "\r" not in text:
        raise NoCase(word)
    return text


def leaf(token, words):
    """The document of a token that holds none, or None."""
    if token in LEAVES:
        return LEAVES[token]
    if token == "t":
        return y.ascii_text(words_of(next(words)))
    if token == "w":
        width = number(next(words))
        return y.text_of_width(words_of(next(words)), width)
    if token == "m":
        return y.multiline_text(payload(next(words)))
    return None


def choice(token, words):
    """How a choice by column or nesting is made."""
    test = next(words)
    if (token, test) == ("oncol", "nesting"):
        return y.if_column_is_nesting
    if (token, test) not in CHOICES:
        raise NoCase(test)
    bound = number(next(words))
    return lambda yes, no: CHOICES[token, test](bound, yes, no)


def over(token, words):
    """How a token that holds documents is made of them, and how many they are."""
    if token in OVER_ONE:
        return OVER_ONE[token], 1
    if token in OVER_TWO:
        return OVER_TWO[token], 2
    if token == "nest":
        columns = offset(next(words))
        return (lambda inner: y.nest(columns, inner)), 1
    if token in ("oncol", "onnest"):
        return choice(token, words), 2
    raise NoCase(token)


def placed(doc, waiting):
    """Hands a document to the node that waits for it, and so on; None while one waits for more."""
    while waiting:
        make, count, docs = waiting[-1]
        docs.append(doc)
        if len(docs) < count:
            return None
        waiting.pop()
        doc = make(*docs)
    return doc


def document(words):
    """The document of a node."""
    waiting = []
    whole = None
    for token in words:
        if token == "=>":
            break
        if whole is not None:
            raise NoCase(token)
        doc = leaf(token, words)
        if doc is None:
            waiting.append((*over(token, words), []))
        else:
            whole = placed(doc, waiting)
    if whole is None:
        raise NoCase("the end")
    return whole


def hexed(layout):
    return layout.encode("utf-8").hex() or "-"


def answer(line):
    """The answer to a case."""
    try:
        words = iter(line.split(" "))
        width = number(next(words))
        ending, policy = next(words), next(words)
        if ending not in ("lf", "crlf") or policy not in ("eager", "deferred"):
            raise NoCase(line)
        doc = document(words)
    except (NoCase, StopIteration):
        return "error"
    try:
        return "ok " + hexed(doc.layout(width, crlf=ending == "crlf", deferred=policy == "deferred"))
    except y.LayoutError as error:
        return "fail " + hexed(error.before)


def main():
    for raw in sys.stdin.buffer:
        line = raw.rstrip(b"\n").decode("utf-8", "replace")
        if line and not line.startswith("#"):
            print(answer(line))


if __name__ == "__main__":
    main()
