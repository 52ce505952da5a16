"""TOML files, and texts made at random, before and after `tomlfmt` lays them out, as Python's tomllib reads them; then such
files and texts broken, byte by byte, and which of them the two take.

Of each file the layouts at 20, 40 and 80 columns have to read as the same value, with the same comments in the same order, and
to be their own layouts. A text that tomllib refuses has to be refused, unless it is refused for a key that is defined twice,
and a text that it takes has to be taken. Of a text with a fault the least form found is shown.
"""

import random
import re

from support.command import content
from support.compare.files import files, ran, said

try:
    import tomllib
except ImportError:
    tomllib = None

# What is missing here.
LACKING = "" if tomllib else "tomllib, which Python 3.11 has,"
WIDTHS = ("20", "40", "80")
# Strings of the four kinds, and comments: what a `#` is in.
PART = re.compile(rb'"""(?:\\[\s\S]|[^\\])*?"{3,5}|\'\'\'[\s\S]*?\'{3,5}|"(?:\\.|[^"\\\n])*"|\'[^\'\n]*\'|#[^\n]*')
TWICE = re.compile(r"Cannot (overwrite|declare|mutate|redefine|define)|Duplicate inline table key")


def read(text):
    """What `tomllib` reads, in its order and with floats as they are spelled, and the error where it refuses the text."""
    try:
        return repr(tomllib.loads(text.decode(), parse_float=lambda it: ("float", it))), None
    except (ValueError, RecursionError) as error:
        return None, str(error)


def comments(text):
    """The comments, without the blanks at their ends."""
    return [it.rstrip(b" \t\r") for it in PART.findall(text) if it.startswith(b"#")]


def fault(program, text, widths=WIDTHS):
    """What is wrong with the answers to a text, or None."""
    value, refusal = read(text)
    for width in widths:
        ended = ran(program, text, "--width", width)
        if ended.returncode not in (0, 1):
            return f"status {ended.returncode}: {said(ended)}"
        if "levels of nesting" in said(ended):
            continue
        if value is None:
            if ended.returncode == 0 and not TWICE.search(refusal):
                return f"taken, and refused by tomllib: {refusal}"
        elif ended.returncode:
            return f"refused: {said(ended)}"
        elif read(ended.stdout)[0] != value:
            return f"another value at width {width}"
        elif comments(ended.stdout) != comments(text):
            return f"other comments at width {width}"
        elif ran(program, ended.stdout, "--width", width).stdout != ended.stdout:
            return f"another layout of the layout at width {width}"
    return None


def least(program, text, kind):
    """A smaller text with a fault of this kind: lines, and then bytes, are left out while it stays."""
    for split in (lambda it: it.splitlines(keepends=True), lambda it: [it[at : at + 1] for at in range(len(it))]):
        parts = split(text)
        step = max(1, len(parts) // 2)
        while step:
            at = 0
            while at < len(parts):
                left = parts[:at] + parts[at + step :]
                found = fault(program, b"".join(left))
                if found and found.split(":")[0] == kind.split(":")[0]:
                    parts = left
                else:
                    at += step
            step //= 2
        text = b"".join(parts)
    return text


SIGNS = b"\"'#[]{},=.\\\n\r\t -+_:0129aeTZ\x00\x7f\xff"
WORDS = ["1", "-0", "+9_000", "0xDEAD_beef", "0o17", "0b1", "1.5e-3", "6E+2", "-inf", "nan", "true", "false", "07:32:00.5",
         "1979-05-27", "1979-05-27 07:32:00", "1979-05-27T00:32:00.999-07:00", '"s"', '"#, ]"', "'it \\ is'", '"\\u00e9"', '""', "''"]
LONG = ['"""\na "" b\n  c\\\n d"""', "'''\n# none\n  x '''", '"""q"""""', "''''''"]
KEYS = ["a", "b-1", "_", "1979-05-27", "1.5", "true", '"k e y"', "'=['", '""', "long_names_take_more_room"]
BLANKS = ["", "", " ", "  ", "\t", " \t "]
COMMENTS = ["# r", "#", "#\tends with blanks  \t", "# \"no string", "## é [x]", "# " + "long " * 12]


def gap(rng, lines):
    """Blanks, and where lines may end there, line ends and comments."""
    made = rng.choice(BLANKS)
    while lines and rng.random() < 0.35:
        made += (rng.choice(COMMENTS) if rng.random() < 0.5 else "") + "\n" * rng.choice([1, 1, 2, 3]) + rng.choice(BLANKS)
    return made


def value(rng, depth, lines):
    """A value that is at most so deep; in an inline table line ends are in arrays and strings alone."""
    kind = rng.random()
    if depth == 0 or kind < 0.45:
        return rng.choice(LONG if rng.random() < 0.1 else WORDS)
    if kind < 0.75:
        made = [gap(rng, True) + value(rng, depth - 1, True) + gap(rng, True) for _ in range(rng.randrange(5))]
        return "[" + ",".join(made) + ("," if made and rng.random() < 0.3 else "") + gap(rng, True) + "]"
    made = []
    for it in rng.sample(range(100), rng.randrange(4)):
        key = gap(rng, False) + f"{rng.choice(['k', 'key-', 'x.y'])}{it}" + gap(rng, False)
        made.append(key + "=" + gap(rng, False) + value(rng, depth - 1, False) + gap(rng, False))
    return "{" + ",".join(made or [gap(rng, False)]) + "}"


def made_text(rng):
    """A TOML text made at random, whose keys are each defined once."""
    lines = []
    for number in range(1, 1 + rng.randrange(1, 12)):
        kind, end = rng.random(), rng.choice(["", "", " " + rng.choice(COMMENTS)])
        parts = [gap(rng, False) + "." + gap(rng, False) + rng.choice(KEYS) for _ in range(rng.randrange(3))]
        key = rng.choice(BLANKS) + f"n{number}" + "".join(parts)
        if kind < 0.15:
            lines.append("[" + gap(rng, False) + key + gap(rng, False) + "]" + end)
        elif kind < 0.25:
            lines.append("[[" + key + gap(rng, False) + "]]" + gap(rng, False) + end)
        elif kind < 0.4:
            lines.append(rng.choice(BLANKS) + rng.choice(["", "", rng.choice(COMMENTS)]))
        else:
            lines.append(key + gap(rng, False) + "=" + gap(rng, False) + value(rng, 3, True) + gap(rng, False) + end)
    text = "\n".join(lines) + rng.choice(["", "\n", "\n\n"])
    return (text.replace("\n", "\r\n") if rng.random() < 0.2 else text).encode()


def broken(rng, text):
    """The text with one byte less, doubled or changed, once or twice."""
    for _ in range(rng.choice([1, 1, 1, 2])):
        if not text:
            return b"a=1"
        at, kind = rng.randrange(len(text)), rng.randrange(3)
        byte = text[at : at + 1]
        other = bytes([rng.choice(SIGNS) if rng.random() < 0.8 else rng.randrange(256)])
        text = text[:at] + (b"", byte + byte, other)[kind] + text[at + 1 :]
    return text


class Comparison:
    """Counts what was found of texts, and shows each fault once for each least text."""

    def __init__(self, program):
        self.program, self.same, self.differ, self.seen = program, 0, 0, set()

    def take(self, name, text, found):
        """Takes note of what is wrong with a text, if anything is. Whether nothing is."""
        self.same, self.differ = self.same + (not found), self.differ + bool(found)
        small = least(self.program, text, found) if found else None
        if found and small not in self.seen:
            print(f"{name}: {found}\n    {small!r}", flush=True)
            self.seen.add(small)
        return not found


def compare(program, options):
    rng, comparison, small = random.Random(options.seed), Comparison(program), []
    for path in files(options.files, ".toml"):
        text = content(path)
        comparison.take(path, text, fault(program, text))
        small += [(path, text)] if 0 < len(text) <= 3000 else []
    of_files = comparison.same
    for _ in range(options.texts):
        text = made_text(rng)
        value, refusal = read(text)
        lost = None if value is not None else f"no TOML by tomllib: {refusal}"
        comparison.take("made at random", text, fault(program, text) or lost)
    of_texts, taken, twice = comparison.same - of_files, 0, 0
    for _ in range(options.texts):
        path, text = rng.choice(small) if small and rng.random() < 0.5 else ("made at random", made_text(rng))
        text = broken(rng, text)
        value, refusal = read(text)
        if comparison.take(f"{path}, broken", text, fault(program, text, ("40",))):
            taken, twice = taken + (value is not None), twice + (value is None and bool(TWICE.search(refusal)))
    refused = comparison.same - of_files - of_texts - taken
    broken_texts = f"of broken ones both took {taken}, and tomllib refused {refused}, {twice} of them for keys defined twice"
    return f"{of_files} files and {of_texts} random texts are the same; {broken_texts}; {comparison.differ} differ", comparison.differ
