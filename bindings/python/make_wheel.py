"""Packs the package and the library into a wheel, by the standard library alone.

    python3 make_wheel.py [--unproved] [FOLDER]

The wheel is put into the folder, which is `dist` beside this file where it is not given; its path is printed. The
environment variable PRETTYLESS may name the library, a file; else it is `bindings/out/libprettyless.so`, or the one that
`tools/install` installed. The same files give the same bytes. Without a library there is a message, and the status is 1.
With --unproved the version ends in `+unproved`: that is for a library that was built without its proofs. An installed
one says that itself.

`pip` calls `build_wheel` and `build_editable`, by pyproject.toml.
"""

import argparse
import base64
import hashlib
import os
import re
import runpy
import zipfile

HERE = os.path.dirname(os.path.abspath(__file__))
REPOSITORY = os.path.dirname(os.path.dirname(HERE))
NAME = "yezhgulo"
SUMMARY = "A pretty printer whose layouts are proved"
LIBRARY = "libprettyless.so"
# The module of the package that looks for the library.
PLACES = runpy.run_path(os.path.join(HERE, NAME, "_places.py"))
# The time of each file in the wheel: the first that a zip archive can have.
EPOCH = (1980, 1, 1, 0, 0, 0)
# The C library of manylinux2014, which older versions of pip know, is 2.17.
OLDEST_GLIBC = 17
# What pkg-config shows of an installed library that was built without its proofs (tools/support/install/prefix.py).
WITHOUT_PROOFS = b"built without its proofs"


def read(*path):
    with open(os.path.join(*path), "rb") as file:
        return file.read()


def library_path():
    """The file of the library. Ends the process where there is none."""
    path = PLACES["found"]([os.path.join(os.path.dirname(HERE), "out", LIBRARY)])
    if path is None or not os.path.isfile(path):
        where = f" at {path}" if path else ""
        raise SystemExit(f"make_wheel: there is no library{where}: {PLACES['HOW']}")
    return path


def is_unproved(path):
    """Whether a library is installed as one that was built without its proofs."""
    try:
        return WITHOUT_PROOFS in read(os.path.dirname(path), "pkgconfig", "prettyless.pc")
    except OSError:
        return False


def tag(code):
    """The tag of a wheel with this library, which has to be one for x86-64: the oldest C library that it runs with."""
    if code[:6] != b"\x7fELF\x02\x01" or code[18:20] != b"\x3e\x00":
        raise SystemExit("make_wheel: the library is not one for Linux on x86-64")
    needs = max((int(minor) for minor in re.findall(rb"GLIBC_2\.(\d+)", code)), default=0)
    return f"py3-none-manylinux{2014 if needs <= OLDEST_GLIBC else f'_2_{needs}'}_x86_64"


def version():
    """The version that the package names."""
    return re.search(r'__version__ = "([^"]+)"', read(HERE, NAME, "__init__.py").decode()).group(1)


def metadata(number):
    """What the wheel of this version is, and the page of the package."""
    fields = [
        "Metadata-Version: 2.1",
        f"Name: {NAME}",
        f"Version: {number}",
        f"Summary: {SUMMARY}",
        "License: MIT",
        "License-File: LICENSE",
        "License-File: NOTICE",
        "Classifier: License :: OSI Approved :: MIT License",
        "Classifier: Operating System :: POSIX :: Linux",
        "Classifier: Programming Language :: Python :: 3",
        "Classifier: Typing :: Typed",
        "Requires-Python: >=3.8",
        "Description-Content-Type: text/markdown",
    ]
    return "\n".join(fields).encode() + b"\n\n" + read(HERE, "README.md")


def package(number):
    """The files of the package of this version, by the names that they have in the wheel, but for the library."""
    names = sorted(os.listdir(os.path.join(HERE, NAME)))
    kept = [name for name in names if name.endswith(".py") or name == "py.typed"]
    files = {f"{NAME}/{name}": read(HERE, NAME, name) for name in kept}
    was, now = (f'__version__ = "{it}"'.encode() for it in (version(), number))
    return {name: content.replace(was, now) for name, content in files.items()}


def about(info, number, wheel_tag):
    """The files that say what the wheel is."""
    wheel = f"Wheel-Version: 1.0\nGenerator: make_wheel\nRoot-Is-Purelib: false\nTag: {wheel_tag}\n"
    return {
        f"{info}/LICENSE": read(REPOSITORY, "LICENSE"),
        f"{info}/METADATA": metadata(number),
        f"{info}/NOTICE": read(REPOSITORY, "NOTICE"),
        f"{info}/WHEEL": wheel.encode(),
    }


def record(files, name):
    """The line of each file, with its hash and its length, and of the record itself."""
    lines = []
    for path, content in files.items():
        digest = base64.urlsafe_b64encode(hashlib.sha256(content).digest()).rstrip(b"=").decode()
        lines.append(f"{path},sha256={digest},{len(content)}\n")
    return "".join(lines + [f"{name},,\n"]).encode()


def pack(path, files):
    """Writes an archive of the files."""
    with zipfile.ZipFile(path, "w") as archive:
        for name, content in files.items():
            entry = zipfile.ZipInfo(name, EPOCH)
            entry.create_system = 3  # Unix, so that the next line is read as a mode.
            entry.external_attr = (0o100755 if name.endswith(".so") else 0o100644) << 16
            entry.compress_type = zipfile.ZIP_DEFLATED
            archive.writestr(entry, content)


def put(folder, files, number, wheel_tag):
    """Packs these files, and those that say what the wheel is, into a folder. The path of the wheel."""
    info = f"{NAME}-{number}.dist-info"
    files = {**files, **about(info, number, wheel_tag)}
    files[f"{info}/RECORD"] = record(files, f"{info}/RECORD")
    os.makedirs(folder, exist_ok=True)
    path = os.path.join(folder, f"{NAME}-{number}-{wheel_tag}.whl")
    pack(path, files)
    return path


def make(folder, is_proved=True):
    """Makes the wheel in a folder, and answers its path."""
    path = library_path()
    code = read(path)
    number = version() + ("+unproved" if not is_proved or is_unproved(path) else "")
    return put(folder, {**package(number), f"{NAME}/{LIBRARY}": code}, number, tag(code))


# What pip calls.


class UnsupportedOperation(Exception):
    """What this package does not have."""


def build_wheel(wheel_directory, config_settings=None, metadata_directory=None):
    """Makes the wheel, and answers its name."""
    return os.path.basename(make(wheel_directory))


def build_editable(wheel_directory, config_settings=None, metadata_directory=None):
    """Makes a wheel that names this folder alone. The package takes the library of the checkout, or an installed one."""
    library_path()
    return os.path.basename(put(wheel_directory, {f"{NAME}.pth": f"{HERE}\n".encode()}, version(), "py3-none-any"))


def build_sdist(sdist_directory, config_settings=None):
    raise UnsupportedOperation("the library is built of the whole repository: make a wheel")


def wanted():
    """What the arguments ask for."""
    dist = os.path.join(HERE, "dist")
    library_used = f"The wheel has the library that PRETTYLESS names, else bindings/out/{LIBRARY}, else an installed one."
    reader = argparse.ArgumentParser(description=__doc__.splitlines()[0], epilog=library_used)
    reader.add_argument("folder", metavar="FOLDER", nargs="?", default=dist, help="gets the wheel (if not given: dist)")
    reader.add_argument("--unproved", action="store_true", help="says that the library was built without its proofs")
    return reader.parse_args()


if __name__ == "__main__":
    options = wanted()
    print(make(options.folder, not options.unproved))
