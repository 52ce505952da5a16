"""The runs of tools/refuse_memory: programs over small inputs, and how they may end."""

import re
from collections import namedtuple

from support import built
from support.command import SUPPORT, content, read

# How a run ends: its status, what it writes, what it says on standard error, and the files that then stand in its folder.
Ending = namedtuple("Ending", "status out said files")
# A program, its words, its standard input and the files in its folder. And how it ends where nothing is refused, and how
# it also ends, after a refusal of one request at least; None where there is no such ending.
Run = namedtuple("Run", "program words given files ending other", defaults=[None])


def name_of(run):
    return " ".join([run.program, *run.words])


# The formatters


def reading(program, words, given, out, status=0, said=b""):
    """A run that reads standard input alone."""
    return Run(program, words, given, {}, Ending(status, out, said, {}))


def with_settings(program, text, layout):
    """A run that reads a file, and what an `.editorconfig` says of it."""
    files = {"text1": text, ".editorconfig": SETTINGS}
    return Run(program, ["text1"], b"", files, Ending(0, layout, b"", files))


def writing(program, words, text, layout):
    """A run that replaces a file by its layout."""
    words = [*words, "--write", "text"]
    return Run(program, words, b"", {"text": text}, Ending(0, b"", b"", {"text": layout}))


JSON = b'{"a":[1,2,{"b":null}],"cc":"dd"}'
JSON_LAID_OUT = b'{\n  "a": [\n    1,\n    2,\n    {\n      "b": null\n    }\n  ],\n  "cc": "dd"\n}\n'
JSON_DIFFERENCE = b'--- <stdin>\n+++ <stdin>\n@@ -1 +1 @@\n-{"a":1}\n+{ "a": 1 }\n'
SETTINGS = b"root = true\n[{t,u}e[!a]t{1..2}]\nmax_line_length = 10\n"
JSON_FAULT = b"<stdin>:2:1: expected `,` or `]`, found the end of the text, opened at 1:6\n"

TOML = b"[ a ]\nb=[1,22,333] # c\n"
TOML_LAID_OUT = b"[a]\nb = [\n  1, 22,\n  333,\n] # c\n"
TOML_DIFFERENCE = b"--- <stdin>\n+++ <stdin>\n@@ -1 +1 @@\n-a=1\n+a = 1\n"
TOML_FAULT = b"<stdin>:1:4: expected a value, found the end of the line\n"

FORMATTING = [
    reading("sexp", ["10"], b"((1) (2 3) (4 5 6))", b"((1)\n (2 3)\n (4 5 6))\n"),
    reading("sexp", ["10"], b"((1) (2", b"", 1, b"error: not an S-expression\n"),
    reading("jsonfmt", ["--width", "10"], JSON, JSON_LAID_OUT),
    reading("jsonfmt", ["--check"], JSON, b"", 1, b"<stdin>: not laid out\n"),
    reading("jsonfmt", ["--diff"], b'{"a":1}\n', JSON_DIFFERENCE, 1),
    reading("jsonfmt", [], b'{"a":[1,2\n', b"", 1, JSON_FAULT),
    writing("jsonfmt", ["--width", "10"], JSON, JSON_LAID_OUT),
    with_settings("jsonfmt", JSON, JSON_LAID_OUT),
    reading("tomlfmt", ["--width", "10"], TOML, TOML_LAID_OUT),
    reading("tomlfmt", ["--check"], TOML, b"", 1, b"<stdin>: not laid out\n"),
    reading("tomlfmt", ["--diff"], b"a=1\n", TOML_DIFFERENCE, 1),
    reading("tomlfmt", [], b"a =\n", b"", 1, TOML_FAULT),
    writing("tomlfmt", ["--width", "10"], TOML, TOML_LAID_OUT),
]


# The cases of replay


def groups(end):
    """A case of forty groups in groups within two alternatives. The printer goes on over a table, since many are broken."""
    front = "app " * 20 + "app t 61 bof hl t 20" + " nil" * 20
    inner = f"app {f'grp app {front} ' * 39}t 61 {end}"
    for _ in range(2):
        inner = f"uni app app sfx t 74 t 78 {inner} app sfx t 75 t 79"
    return f"50 lf eager app app t 70 sfx t 73 {inner}"


def stored(name):
    return re.findall(r"^([^#].*) => (.*)$", read(f"{SUPPORT}/memory/{name}.cases"), re.M)


def over_tables():
    # The 25 last letters take 49 columns. Those before them have lines of their own, the first one with the suffixes.
    kept = b"pxxastt" + 15 * b"\na" + 24 * b" a"
    return [(groups("nil"), f"ok {kept.hex()}"), (groups("fail"), f"ok {b'pxystu'.hex()}")]


def replaying(words, stated):
    """A run of cases with their outcomes."""
    cases, outcomes = zip(*stated)
    given, out = ["".join(f"{line}\n" for line in lines).encode() for lines in (cases, outcomes)]
    return reading("replay", words, given, out)


# Builders


def building():
    """A run that builds and lays out once more where memory is refused."""
    folder = built.folder_of("test_refusals")
    run = reading("test_refusals", [], content(f"{folder}/stdin"), content(f"{folder}/stdout"))
    return run._replace(other=run.ending._replace(out=without_table(run.ending.out)))


def without_table(out):
    """What the same run writes where the table of its counted document is refused memory."""
    return out.replace(b"of probes: 1", b"of probes: 6")


def all_runs():
    cases = stored("replay") + over_tables()
    hostile = [replaying(["--hostile"], [case]) for case in stored("hostile")]
    return [replaying([], cases), *hostile, *FORMATTING, building()]


# How a run may end


# The status and the message of a program that lacks memory.
MESSAGES = {
    "jsonfmt": (3, rb"(jsonfmt: .+|error): out of memory\n"),
    "tomlfmt": (3, rb"(tomlfmt: .+|error): out of memory\n"),
    "sexp": (3, rb"error: render failed\n"),
    "replay": (1, rb"error: reading or writing failed\n"),
}


def tells_refusal(run, ending):
    """Whether a program ended for lack of memory: with its message, a beginning of its output, and its files as they were."""
    status, message = MESSAGES.get(run.program, (None, b""))
    is_told = ending.status == status and re.fullmatch(message, ending.said)
    return is_told and run.ending.out.startswith(ending.out) and ending.files == run.files


def answers_refusal(run, ending):
    """Whether one answer of `replay` is that memory was refused, and each other one is right."""
    answers, wanted = ending.out.splitlines(), run.ending.out.splitlines()
    others = [answer for answer, outcome in zip(answers, wanted) if answer != outcome]
    is_whole = (ending.status, ending.said, len(answers)) == (0, b"", len(wanted))
    return run.program == "replay" and is_whole and others == [b"error out of memory"]


def is_right(run, ending, is_refused):
    """Whether a run in which a request was refused, or none, may end so."""
    if ending == run.ending:
        return True
    return is_refused and (ending == run.other or tells_refusal(run, ending) or answers_refusal(run, ending))
