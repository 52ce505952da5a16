"""What `jsonfmt --diff` writes of files with strange names, given to GNU `patch` and to `git apply`, beside `jsonfmt --write`.

Each file is made in a folder of its own, with others beside it whose names a careless reader would take for its name. Of a
name of bytes that are no UTF-8 a message is wanted, and of the file beside it the layout.
"""

import os
import shutil
import tempfile

from support.command import content
from support.compare.files import ran, said

NAMES = [
    "a.json", "sub/a.json", "a b.json", "a  b.json", " a.json", "a.json ", "a\tb.json", "a\nb.json", "\n", 'a"b.json', '"a.json"',
    "a\\b.json", "a\\tb.json", "-x.json", "--", "\x01.json", "\x7f.json", "\a\b\v\f\r", "é.json", "é b.json", '"é".json', "\u00a0.json",
    "a\u2028b.json", "a (1).json", "a.json\t2001-01-01", "a 2001-01-01 00:00:00 b.json", "sub b/a b.json", " ", "dev/null.json",
    "+++ a", "@@ -1 +1 @@", "\\101.json", "a'b.json", "日本 語.json", "a\x85b.json", "a\rb.json", "a b\r",
]  # fmt: skip
OLD = b'{"a":[1,2],\n"b":{}}\n'
BESIDE = ["a", "b.json", "b", "a.json", "x.json", '"a', "a b"]
PATCHING = (["patch", "-p0", "--no-backup-if-mismatch"], ["git", "apply", "-p0"])
# What is missing here.
LACKING = " ".join(it[0] for it in PATCHING if not shutil.which(it[0]))


def fill(folder, names):
    for name in names:
        path = os.path.join(os.fsencode(folder), os.fsencode(name))
        os.makedirs(os.path.dirname(path), exist_ok=True)
        with open(path, "wb") as file:
            file.write(OLD)


def held(folder):
    """The texts of the files below a folder, by their paths within it."""
    top = os.fsencode(folder)
    paths = [os.path.join(at, name) for at, _, names in os.walk(top) for name in names]
    return {os.path.relpath(it, top): content(it) for it in paths}


def outcome(program, name, patching):
    """The files after a difference of this one was applied or, without a program for that, after it was replaced."""
    with tempfile.TemporaryDirectory() as folder:
        fill(folder, [*BESIDE, name])
        if patching is None:
            ran(program, b"", "--write", "--", name, folder=folder)
        else:
            ended = ran(*patching[:1], ran(program, b"", "--diff", "--", name, folder=folder).stdout, *patching[1:], folder=folder)
            if ended.returncode:
                print(f"{name!r}: {patching[0]}: {ended.stdout.decode(errors='replace')}{said(ended)}")
        return held(folder)


def faults_of(program, name):
    """What is wrong with the differences of a file of this name."""
    wanted = outcome(program, name, None)
    faults = ["it is not laid out"] if wanted[os.fsencode(name)] == OLD else []
    return faults + [f"{it[0]} changes something else" for it in PATCHING if outcome(program, name, it) != wanted]


def faults_without_utf8(program):
    """The same of a name that is not UTF-8, and of a file beside it."""
    name, beside = b"a\xff.json", b"b.json"
    with tempfile.TemporaryDirectory() as folder:
        fill(folder, [name, beside])
        ended, files = ran(program, b"", "--write", name, beside, folder=folder), held(folder)
    is_right = ended.returncode == 3 and b"a\\xff.json" in ended.stderr and files[name] == OLD and files[beside] != OLD
    return [] if is_right else [f"{ended}"]


def compare(program, _):
    faults = {**{name: faults_of(program, name) for name in NAMES}, "a name that is not UTF-8": faults_without_utf8(program)}
    for name, found in faults.items():
        for it in found:
            print(f"{name!r}: {it}")
    count = sum(map(len, faults.values()))
    return f"{len(faults)} names, {count} faults", count
