"""The crates that crates.txt of a repository lists, and what a check of them reads."""

import os
import shutil
from collections import namedtuple

from support.command import ROOT

# What of a crate a proof reads.
PARTS = ("src", "specs", "proofs")


class Crate(namedtuple("Crate", "name folder line uses is_static")):
    """A crate: its folder, its line of crates.txt, the libraries that it names, and whether it is a static library."""

    @property
    def is_program(self):
        return os.path.isfile(f"{self.folder}/src/main.rt")

    @property
    def rlib(self):
        """Where its library stands once it is proved."""
        return f"{self.folder}/out/rlib/{self.name}.rlib"

    def sources(self):
        """The files that a check of it reads, and their folders, which change where a file goes."""
        places = [os.walk(f"{self.folder}/{part}") for part in PARTS]
        return [it for place in places for at, _, files in place for it in [at, *(f"{at}/{file}" for file in files)]]


def crates_of(root=ROOT):
    with open(f"{root}/crates.txt", encoding="utf-8") as lines:
        rows = [line.partition("#")[0].strip() for line in lines]
    found = {}
    for row in filter(None, rows):
        head, _, uses = row.partition(":")
        name, *kind = head.split()
        found[name] = Crate(name, f"{root}/crates/{name}", row, uses.split(), "staticlib" in kind)
    return found


def below(names, crates):
    """The crates that these stand on, each after those that it uses. Those that are not listed are the toolchain's."""
    found = {}

    def add(name):
        for it in crates[name].uses:
            if it in crates and it not in found:
                add(it)
                found[it] = crates[it]

    for name in names:
        add(name)
    return list(found.values())


def with_below(names, crates):
    """These crates and those that they stand on, each once and after those that it uses."""
    every = [*below(names, crates), *(crates[name] for name in names)]
    return list({it.name: it for it in every}.values())


def files_below(folder):
    """The files below a folder, in an order that is the same everywhere."""
    return sorted(f"{at}/{name}" for at, _, names in os.walk(folder) for name in names)


def copy_parts(crate, to, parts=PARTS):
    """Copies the files and folders of these names that a crate has into a folder."""
    for path, copy in [(f"{crate.folder}/{it}", f"{to}/{it}") for it in parts]:
        if os.path.isdir(path):
            shutil.copytree(path, copy)
        elif os.path.isfile(path):
            os.makedirs(to, exist_ok=True)
            shutil.copy(path, copy)


def changed(path):
    """When a file or a folder was changed, also where it was given an older time."""
    found = os.stat(path)
    return max(found.st_mtime, found.st_ctime)


def is_newer(path, files, when=changed):
    """Whether a file or a folder stands there that was made after the last change of these files."""
    return os.path.exists(path) and os.path.getmtime(path) >= max(map(when, files))
