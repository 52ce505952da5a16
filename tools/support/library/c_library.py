"""Makes libprettyless.a and libprettyless.so of the code of the calls for other languages.

All names but those of the calls are hidden in both. The shared library has a soname, libprettyless.so.1, that changes
only where a program that was linked with it no longer runs.
"""

import os
import shutil
import tempfile

from support.command import Failed, output
from support.toolchain import allocation

CALLS = ("prettyless_layout", "prettyless_layout_json", "prettyless_layout_toml")
# What the library may take from the C library.
OF_LIBC = {"malloc", "realloc", "free", "memcpy", "memmove", "memset", "memcmp"}
ARCHIVE, SHARED = "libprettyless.a", "libprettyless.so"
SONAME = f"{SHARED}.1"
# Each program that is run, and the Debian package that has it.
NEEDED = {"ar": "binutils", "gcc": "gcc", "ld": "binutils", "nm": "binutils", "objcopy": "binutils"}


def joined(code, to):
    """One object of what the calls need; every other name in it is local."""
    roots = [word for call in CALLS for word in ("-u", call)]
    output(["ld", "-r", "--gc-sections", *roots, "-o", to, code, allocation()])
    output(["objcopy", "--strip-unneeded", *[f"--keep-global-symbol={call}" for call in CALLS], to])


def check_names(what, path, options, wanted):
    """Compares the names that `nm` shows of a library with those that are wanted."""
    lines = [line for line in output(["nm", *options, path]).splitlines() if line.strip() and not line.endswith(":")]
    names = {line.split()[-1].split("@")[0] for line in lines}
    if not names <= wanted or (wanted == set(CALLS) and names != wanted):
        raise Failed(f"names {what} {os.path.basename(path)}: {' '.join(sorted(names))}")


def build(code, folder):
    """Makes both in a folder, of the code of the calls and the toolchain's allocation, and checks names. The folder."""
    os.makedirs(folder, exist_ok=True)
    with tempfile.TemporaryDirectory() as room:
        whole = f"{room}/prettyless.o"
        joined(code, whole)
        output(["ar", "rcsD", f"{room}/{ARCHIVE}", whole])
        linked = ["-Wl,--gc-sections", "-Wl,-z,defs", "-Wl,-z,noexecstack", f"-Wl,-soname,{SONAME}"]
        output(["gcc", "-shared", "-s", *linked, "-o", f"{room}/{SHARED}", whole])
        check_names("defined in", f"{room}/{ARCHIVE}", ["-g", "--defined-only"], set(CALLS))
        check_names("defined in", f"{room}/{SHARED}", ["-D", "--defined-only"], set(CALLS))
        check_names("wanted by", f"{room}/{ARCHIVE}", ["-u"], OF_LIBC)
        # Each is a file of its own: `rt ci` refuses links in a repository.
        for made, name in ((ARCHIVE, ARCHIVE), (SHARED, SHARED), (SHARED, SONAME)):
            if os.path.lexists(f"{folder}/{name}"):
                os.remove(f"{folder}/{name}")
            shutil.copy(f"{room}/{made}", f"{folder}/{name}")
    return folder
