"""The toolchain on the path, and how its programs are called."""

import functools
import os
import shutil

from support.command import Failed, link_all, run, write

# How a clang takes the code that the toolchain gives it, and writes its text.
AS_TEXT = ("-S", "-emit-llvm", "-O0", "-Xclang", "-disable-llvm-passes")


def need_rt():
    if not shutil.which("rt"):
        raise Failed("there is no rt here: put the toolchain's folder bin on the path")


@functools.lru_cache(maxsize=None)
def kit():
    need_rt()
    return os.path.dirname(run(["rt", "doc"])[0].strip())


def allocation():
    """The toolchain's archive that has the allocation of a static library."""
    return f"{kit()}/c/liblibc_c.a"


def prover(verb, crate, libraries):
    """The words by which the prover takes a crate, over the libraries of repositories below it, whose places are given by name."""
    at = kit()
    words = [f"{at}/bin/rattle", verb, "--crate-name", crate.name, "src/main.rt" if crate.is_program else "src/lib.rt"]
    for it in ("std", *crate.uses):
        words += ["--extern", f"{it}={libraries.get(it) or f'{at}/rlibs/{it}.rlib'}"]
    for it in (f"{at}/rlibs", *map(os.path.dirname, libraries.values())):
        words += ["-L", f"dependency={it}"]
    words += ["--antt-project", f"{at}/rattle/logic/antt-project.json", "--logic-built", f"{at}/logic_built"]
    words += ["--links", f"{crate.name}=", "--jobs", "1"]
    return words + ["--crate-type", "staticlib"] * crate.is_static


def prove_static(crate, libraries, to, toolchain=None):
    """Proves a static library over those below it, and builds its archive. What was printed, and the status."""
    at = kit()
    words = ["--toolchain", toolchain or f"{at}/toolchain", "--backend", "llvm", "-o", to]
    return run([*prover("build", crate, libraries), *words], crate.folder)


def with_clang(folder, script):
    """A folder like that of the toolchain's compilers, whose clang first runs these lines of a shell. Its path."""
    real = f"{kit()}/toolchain"
    link_all(real, folder)
    os.remove(f"{folder}/bin")
    link_all(f"{real}/bin", f"{folder}/bin")
    os.remove(f"{folder}/bin/clang")
    write(f"{folder}/bin/clang", f'#!/bin/sh\n{script}\nexec "{real}/bin/clang" "$@"\n')
    os.chmod(f"{folder}/bin/clang", 0o755)
    return folder
