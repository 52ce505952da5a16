"""The proved programs and static libraries.

`rt ci` leaves each program, and each library with its statements alone. A static library it only checks, and `rt lib` would
prove all libraries below it once more. So it is built here over those that `rt ci` left, which takes the time of its own
check. What `rt ci` did not leave, or left of older sources, `rt run` and `rt lib` prove and build.
"""

import os
import sys
import tempfile

from support.command import ROOT, Failed, run
from support.crates import below, crates_of, is_newer
from support.toolchain import prove_static, with_clang

# The static library of the calls for other languages.
STATIC = "prettyless_c"


def folder_of(name):
    return f"{ROOT}/crates/{name}"


def program(name):
    path = f"{folder_of(name)}/out/{name}"
    if not is_left(path, name):
        # It runs then, and its own status says nothing of the proof.
        make(["rt", "run"], name, path)
    return path


def builds(name):
    """The paths of the proved program, as LLVM built it, and as Rattle's own compiler did where `rt ci` left that."""
    path = program(name)
    other = f"{path}.by-rattle"
    return [path, other] if is_left(other, name) else [path]


def static_library(name=STATIC):
    """The path of the archive of this static library, which is proved."""
    path = made_of(name)
    if not is_left(path, name) and not (are_left(below([name], crates_of())) and build_over_left(name)):
        make(["rt", "lib"], name, path)
    return path


def code(name=STATIC):
    """The path of what the toolchain hands to LLVM of this static library, which is proved."""
    path = made_of(name, "bc")
    static_library(name)
    if not is_left(path, name) and not build_over_left(name):
        raise Failed(f"{name} was not built over the libraries below it")
    return path


def made_of(name, ending="a"):
    """The path of the archive of a static library, or of its code, which ends in bc."""
    return f"{folder_of(name)}/out/lib{name}.{ending}"


# What stands in the repository


def is_left(path, name):
    """Whether a file stands there that was made of the crate of this name and those below it as they are."""
    crates = crates_of()
    read = [it for crate in [crates[name], *below([name], crates)] for it in crate.sources()]
    return is_newer(path, [f"{ROOT}/crates.txt", *read])


def are_left(crates):
    """Whether `rt ci` left the libraries of these, of the sources as they are. Those of other commands have a stamp."""
    stamped = any(os.path.exists(f"{os.path.dirname(it.rlib)}/stamp") for it in crates)
    return not stamped and all(is_newer(it.rlib, [f"{ROOT}/crates.txt", *it.sources()]) for it in crates)


# Building


def make(words, name, path):
    """Runs a command of rt in the folder of the crate, which is to make the file at this path anew. It may take long."""
    print(f"{name}: {' '.join(words)}, for rt ci left nothing of the sources as they are", file=sys.stderr, flush=True)
    if os.path.exists(path):
        os.remove(path)
    printed, _ = run(words, folder_of(name))
    if not os.path.exists(path):
        raise Failed(f"{' '.join(words)} did not build {name}", printed)


def build_over_left(name):
    """Proves a static library over those that were left, and builds it and its code. Whether that was done."""
    crates, code_at = crates_of(), made_of(name, "bc")
    keeps = f'for it in "$@"; do case "$it" in *.bc) cp "$it" "{code_at}" ;; esac; done'
    os.makedirs(f"{folder_of(name)}/out", exist_ok=True)
    libraries = {it.name: it.rlib for it in below([name], crates)}
    with tempfile.TemporaryDirectory() as room:
        return not prove_static(crates[name], libraries, made_of(name), with_clang(f"{room}/toolchain", keeps))[1]
