"""Names that stand for two things: definitions of specs/, and types of code and of proofs."""

import collections
import glob
import os
import re

from support.command import ROOT, SUPPORT, read

NAME = r"([A-Za-z][\w'?!-]*)"
AT_MARGIN = re.compile(rf"(?:(?:pub|unfolding|unfoldable|pattern|abbrev|record|data) )*{NAME}(?: |$)")
# In a block of definitions that use one another.
IN_BLOCK = re.compile(rf"  (?:(?:pub|abbrev|record|data) )*{NAME} :")
BLOCK = ("mutual", "abbrev mutual")
NO_NAMES = {"use", "mod", "module", "mutual", "where", "pub"}
# The types of each kind of file.
TYPES = {
    "code": ("src/**/*.rt", re.compile(r"^ *(?:pub(?:\([^)]*\))? )?(?:unsafe )?(?:struct|enum|trait) (\w+)", re.M)),
    "proofs": ("[sp]*/**/*.antt", re.compile(rf"^(?:  )?(?:(?:pub|unfolding|unfoldable) )*(?:data|record) {NAME}", re.M)),
}
# The types that are known to stand for several things: the kind, the name, and in how many files.
KNOWN = f"{SUPPORT}/doubles.txt"


def names_of(path):
    found, in_block = set(), False
    for line in read(path).splitlines(keepends=True):
        in_block = line.startswith(BLOCK) or (in_block and line[0] in " \n")
        name = IN_BLOCK.match(line) if in_block else AT_MARGIN.match(line)
        found |= {name[1]} if name else set()
    return found - NO_NAMES


def files(pattern):
    return sorted(it for it in glob.glob(f"{ROOT}/crates/*/{pattern}", recursive=True) if "/out/" not in it)


def places_of(paths, names):
    """The files that have each name, in which `names` finds them."""
    places = collections.defaultdict(list)
    for path in paths:
        for name in sorted(set(names(path))):
            places[name].append(os.path.relpath(path, ROOT))
    return places


def doubles_of(places):
    return {name: paths for name, paths in sorted(places.items()) if len(paths) > 1}


def known():
    """How many files each type that is known to stand for several things stands in, by its kind and name."""
    rows = [line.split() for line in read(KNOWN).splitlines() if not line.startswith("#")]
    return {(kind, name): int(count) for kind, name, count in rows}


def types():
    """The types that stand in several files, with these, by kind and name."""
    found = {}
    for kind, (pattern, form) in TYPES.items():
        doubles = doubles_of(places_of(files(pattern), lambda path: form.findall(read(path))))
        found.update({(kind, name): paths for name, paths in doubles.items()})
    return found


def check_types(lists_all):
    """Prints the types that stand for more things than is known, and what is known too much. How many of the first there are."""
    found, allowed = types(), known()
    new = [it for it, paths in found.items() if len(paths) > allowed.get(it, 1)]
    for kind, name in found if lists_all else new:
        print(f"{name}, a type of {kind}: {', '.join(found[kind, name])}")
    for it, count in allowed.items():
        stands = len(found.get(it, [None]))
        if stands < count:
            print(f"{it[1]}, a type of {it[0]}, stands in fewer files now ({stands}), and {os.path.relpath(KNOWN, ROOT)} may say so")
    print(f"names: {len(found)} types stand for several things, {len(new)} of them anew")
    return len(new)


def main(options):
    new, specs = check_types(options.types), files("specs/**/*.antt")
    places = places_of(specs, names_of)
    twice = doubles_of(places)
    for name, paths in twice.items():
        print(f"{name}: {', '.join(paths)}")
    print(f"names: {len(places)} in {len(specs)} files, {len(twice)} of them defined twice")
    return 1 if twice or new else 0
