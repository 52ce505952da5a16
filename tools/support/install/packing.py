"""What `.ci/run` proved and built, packed."""

import glob
import gzip
import json
import os
import re
import shutil
import tarfile
import tempfile

from support import built
from support.built import STATIC
from support.command import ROOT, Failed, output, put, read, write
from support.crates import below, crates_of, files_below, with_below
from support.install import overlay
from support.install.prefix import put_library, put_program, put_wheel
from support.toolchain import kit
from support.version import FORMATTERS, commit, others, version
from support.web import module
from support.web.package import package_of

DIST = f"{ROOT}/dist"
# The folders of a crate that have what is counted.
EDITS = "must-fail/*.edit"
TEST = re.compile(r"^ *#\[test\]", re.M)


# What `.ci/run` left


def check_left(crates):
    """Fails where the checkout is no commit, or where something that is packed is not of its sources."""
    if not commit() or commit().endswith("+"):
        raise Failed("files differ from the commit that the checkout stands on: commit them, or put them away")
    files = {**{it: f"{built.folder_of(it)}/out/{it}" for it in FORMATTERS}, STATIC: built.made_of(STATIC)}
    older = [name for name, path in files.items() if not built.is_left(path, name)]
    older += [] if built.are_left([*with_below(overlay.NAMED, crates), *below([STATIC], crates)]) else ["the libraries"]
    if older:
        raise Failed(f".ci/run left nothing of the sources as they are of {', '.join(older)}: run it first")


def manifest(crates):
    """What was proved and tested, of which commit and by which toolchain."""
    tests = [sum(len(TEST.findall(read(path))) for path in files_below(f"{it.folder}/src")) for it in crates.values()]
    return {
        "version": version(),
        "commit": commit(),
        "toolchain": overlay.build_of(kit()).splitlines(),
        "crates proved": len(crates),
        "crates whose tests are proved": sum(map(bool, tests)),
        "tests run": sum(tests),
        "edits refused": sum(len(glob.glob(f"{it.folder}/{EDITS}")) for it in crates.values()),
    }


# Packing


def plain(member):
    """A member of an archive without its time and its owner, so that the same files give the same bytes."""
    member.mtime = member.uid = member.gid = 0
    member.uname = member.gname = ""
    return member


def pack(folder, name, top=""):
    """Packs a folder into an archive of this name, under a folder `top` where one is given."""
    path = f"{DIST}/{name}"
    with open(path, "wb") as raw, gzip.GzipFile("", "wb", 6, raw, 0) as zipped:
        with tarfile.open(fileobj=zipped, mode="w", format=tarfile.PAX_FORMAT) as archive:
            for file in files_below(folder):
                archive.add(file, os.path.join(top, os.path.relpath(file, folder)), filter=plain)
    return path


def pack_prefix(name, about):
    with tempfile.TemporaryDirectory() as folder:
        for it in FORMATTERS:
            put_program(it, built.program(it), folder)
        put_library(built.static_library(), folder, True)
        for path in (f"{ROOT}/LICENSE", f"{ROOT}/NOTICE", f"{ROOT}/CHANGELOG.md", about):
            put(path, f"{folder}/share/doc/yezhgulo/{os.path.basename(path)}")
        return pack(folder, f"{name}.tar.gz", name)


def pack_libraries(crates, name):
    with tempfile.TemporaryDirectory() as folder:
        overlay.collect(crates, lambda it: it.rlib, overlay.record_of(kit(), crates), folder)
        return pack(folder, f"{name}.tar.gz")


def pack_package(name):
    """Packs the package for JavaScript as `npm pack` does, with the module of the code that is proved."""
    with tempfile.TemporaryDirectory() as room:
        path = f"{room}/{module.NAME}"
        module.build(path)
        return pack(package_of(path, f"{room}/package"), f"{name}.tgz", "package")


def main(_):
    crates, number = crates_of(), version()
    if others():
        raise Failed("the parts have different versions: tools/versions says which")
    check_left(crates)
    shutil.rmtree(DIST, ignore_errors=True)
    os.makedirs(DIST)
    told = write(f"{DIST}/MANIFEST.json", json.dumps(manifest(crates), indent=1) + "\n")
    paths = [told, pack_prefix(f"yezhgulo-{number}-x86_64-linux", told), *put_wheel(built.static_library(), DIST, True)]
    paths += [pack_package(f"yezhgulo-{number}")]
    paths += [pack_libraries(crates, f"yezhgulo-{number}-libraries-{overlay.build_of(kit()).split()[0]}")]
    write(f"{DIST}/SHA256SUMS", output(["sha256sum", *map(os.path.basename, paths)], DIST))
    for path in paths:
        print(f"release: dist/{os.path.basename(path)}, {os.path.getsize(path):,} bytes")
