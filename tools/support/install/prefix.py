"""What stands where below a prefix.

usage: python3 -m support.install.prefix LIBRARY PREFIX

installs the library that stands in a folder, for `make install` of bindings/c.
"""

import os
import re
import sys
import tempfile

from support.command import ROOT, begin, output, put, read, write
from support.library import c_library
from support.version import FORMATTERS, version

COMPLETION = """# Completions of {name} for bash: the options of its --help, and else files.
_{name}() {{
    COMPREPLY=()
    case "$2" in
        -*) COMPREPLY=($(compgen -W "{options}" -- "$2")) ;;
    esac
}}
complete -o default -F _{name} {name}
"""
C = f"{ROOT}/bindings/c"
PRINTER = "A pretty printer"
# What is made of templates of that folder, for pkg-config and for CMake, and where it stands.
TOLD = {
    "prettyless.pc": "lib/pkgconfig",
    "prettyless-config.cmake": "lib/cmake/prettyless",
    "prettyless-config-version.cmake": "lib/cmake/prettyless",
}


def put_program(name, made, prefix):
    """Installs a program, and the page and the completions of a formatter. The files."""
    program = put(made, f"{prefix}/bin/{name}", 0o755)
    if name not in FORMATTERS:
        return [program]
    page = put(f"{ROOT}/docs/{name}.1", f"{prefix}/share/man/man1/{name}.1")
    options = " ".join(re.findall(r"^ +(?:-\w, +)?(--[\w-]+)", output([program, "--help"]), re.M))
    completions = COMPLETION.format(name=name, options=options)
    return [program, page, write(f"{prefix}/share/bash-completion/completions/{name}", completions)]


def put_library(code, prefix, is_proved):
    """Installs the library of this code, its header, and what pkg-config and CMake read. The files."""
    proofs = " whose layouts are proved" if is_proved else ", built without its proofs"
    with tempfile.TemporaryDirectory() as room:
        return put_made_library(c_library.build(code, room), prefix, f"{PRINTER}{proofs}")


def description_of(folder):
    """What is told of the library that stands in a folder, where it was installed there."""
    path = f"{folder}/pkgconfig/prettyless.pc"
    told = re.search(r"^Description: (.*)", read(path), re.M) if os.path.exists(path) else None
    return told[1] if told else PRINTER


def put_made_library(folder, prefix, description):
    """The same of a library that stands in a folder."""
    shared = f"{prefix}/lib/{c_library.SHARED}"
    archive = put(f"{folder}/{c_library.ARCHIVE}", f"{prefix}/lib/{c_library.ARCHIVE}")
    put(f"{folder}/{c_library.SHARED}", f"{shared}.{version()}", 0o755)
    for it in (shared, f"{prefix}/lib/{c_library.SONAME}"):
        if os.path.lexists(it):
            os.remove(it)
        os.symlink(f"{c_library.SHARED}.{version()}", it)
    header = put(f"{C}/prettyless.h", f"{prefix}/include/prettyless.h")
    return [archive, shared, header, *(write(f"{prefix}/{place}/{it}", told(it, description)) for it, place in TOLD.items())]


def told(name, description):
    """What tells pkg-config or CMake where the library is."""
    return read(f"{C}/{name}.in").replace("@VERSION@", version()).replace("@DESCRIPTION@", description)


def put_wheel(code, folder, is_proved):
    """Makes the wheel, which has the library in it, in a folder. The file."""
    words = [sys.executable, f"{ROOT}/bindings/python/make_wheel.py", folder] + ["--unproved"] * (not is_proved)
    with tempfile.TemporaryDirectory() as room:
        library = f"{c_library.build(code, room)}/{c_library.SHARED}"
        return [output(words, PRETTYLESS=library, PYTHONDONTWRITEBYTECODE="1").strip()]


def main(options):
    folder, prefix = map(os.path.abspath, (options.library, options.prefix))
    print("\n".join(put_made_library(folder, prefix, description_of(folder))))


if __name__ == "__main__":
    begin("install.prefix", __doc__)
