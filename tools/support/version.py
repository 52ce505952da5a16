"""The version, and the places that have it."""

import re
import subprocess
from collections import namedtuple

from support.command import ROOT, read, write

NUMBER = r"(\d[\w.+-]*)"

# A file that has the version, what stands before it there, and how often.
Place = namedtuple("Place", "path pattern times")


def place(path, before, times=1):
    return Place(path, re.compile(f"({before}){NUMBER}", re.M), times)


# The programs, each of a crate of its name whose `request.rt` has its `--version` line.
FORMATTERS = ("jsonfmt", "tomlfmt")
PLACES = [
    *(place(f"crates/{name}/src/request.rt", f'"{name}", "') for name in FORMATTERS),
    place("crates/tomlfmt/edits/asks_for_jsonfmt.edit", r'"(?:json|toml)fmt", "', 2),
    place("cases/jsonfmt/words.cases", 'jsonfmt (?=[^"]*" \\.\\.$)', 2),
    place("cases/tomlfmt/files.cases", 'tomlfmt (?=[^"]*" \\.\\.$)'),
    *(place(f"docs/{name}.1", f'^\\.TH \\w+ 1 "" "{name} ') for name in FORMATTERS),
    place("bindings/c/prettyless.h", '^#define PL_VERSION "'),
    place("bindings/python/yezhgulo/__init__.py", '^__version__ = "'),
    place("bindings/rust/Cargo.toml", '^version = "'),
    place("bindings/javascript/package.json", '^  "version": "'),
]


def version():
    return read(f"{ROOT}/VERSION").strip()


def others():
    found = [(it, [number for _, number in it.pattern.findall(read(f"{ROOT}/{it.path}"))]) for it in PLACES]
    return [(it.path, numbers) for it, numbers in found if numbers != [version()] * it.times]


def commit():
    """The commit that the checkout stands on, with a + where files differ from it. Nothing where git does not say."""
    try:
        return git("rev-parse", "--short=8", "HEAD") + "+" * bool(git("status", "--porcelain"))
    except (OSError, subprocess.CalledProcessError):
        return ""


def git(*words):
    return subprocess.check_output(["git", *words], cwd=ROOT, stderr=subprocess.DEVNULL, universal_newlines=True).strip()


def main(options):
    new = options.new
    if new and not re.fullmatch(r"\d+\.\d+\.\d+", new):
        options.error(f"{new} is no version")
    if new:
        write(f"{ROOT}/VERSION", f"{new}\n")
        for path, pattern, _ in PLACES:
            write(f"{ROOT}/{path}", pattern.sub(lambda found: found[1] + new, read(f"{ROOT}/{path}")))
    found = others()
    for path, numbers in found:
        print(f"{path}: {' '.join(numbers) or 'no version'}, and VERSION has {version()}")
    print(f"versions: {version()} in {len(PLACES)} places, {len(found)} of them otherwise")
    return 1 if found else 0
