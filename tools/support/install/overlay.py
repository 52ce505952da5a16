"""A toolchain that has the proved library among its own.

With its `rt`, a crate of any repository names `prettyless` in crates.txt as it names `json`. It is a folder of links to
the plain toolchain, with `bin` copied: rt finds its toolchain by its own real path. What a proof has made of the
library serves the very build of the toolchain that made it, so a record says which that was.
"""

import hashlib
import json
import os
import shutil
import tarfile

from support.command import content, link_all, read, write
from support.crates import PARTS, copy_parts, files_below, with_below
from support.version import commit, version

# The crates that are for other repositories; those below them come along.
NAMED = ("prettyless", "prettyless_shapes")
RECORD = "yezhgulo.json"


def build_of(kit):
    """What tells a build of the toolchain from others."""
    return "\n".join(read(f"{kit}/{name}").strip() for name in ("KIT-ID", "WHAT"))


def sum_of(crates):
    """A sum of all that a proof reads of these crates."""
    sums = hashlib.sha256()
    for crate in crates:
        for path in [it for part in PARTS for it in files_below(f"{crate.folder}/{part}")]:
            sums.update(repr((os.path.relpath(path, crate.folder), content(path))).encode())
    return sums.hexdigest()


def record_of(kit, crates):
    """The record of the libraries that a toolchain proved of these crates of the checkout."""
    sums = {"toolchain": build_of(kit), "sources": sum_of(with_below(NAMED, crates))}
    return {**sums, "version": version(), "commit": commit()}


def difference(record, kit, crates):
    """Why libraries with this record do not serve here, or nothing where they do."""
    proved_by = record.get("toolchain", "another toolchain")
    if proved_by != build_of(kit):
        return f"they were proved by {proved_by.splitlines()[0]}, and this is another build: {build_of(kit).splitlines()[0]}"
    if record.get("sources") != sum_of(with_below(NAMED, crates)):
        return "they were proved of other sources than those of this checkout"
    return ""


def collect(crates, library, record, to):
    """Puts the libraries into a folder, each as its `library` names its place, with their sources and the record."""
    for crate in with_below(NAMED, crates):
        shutil.copytree(library(crate), f"{to}/rlibs/{crate.name}.rlib")
        copy_parts(crate, f"{to}/rattle/{crate.name}")
    write(f"{to}/{RECORD}", json.dumps(record, indent=1))


def unpack(archive, to):
    """Unpacks an archive of such a folder, and answers its record."""
    with tarfile.open(archive) as packed:
        for member in packed.getmembers():
            parts = member.name.split("/")
            if member.name.startswith("/") or ".." in parts or not (member.isdir() or member.isfile()):
                raise OSError(f"{archive} has {member.name}, which has no place in it")
            packed.extract(member, to, set_attrs=False)
    return json.loads(read(f"{to}/{RECORD}"))


def make(kit, libraries, to):
    """Makes the toolchain in a folder, of a plain one and a folder of libraries, or in place of one made so before."""
    if os.path.lexists(to) and not os.path.exists(f"{to}/{RECORD}"):
        raise OSError(f"{to} is there, and was not made by tools/install --toolchain: remove it or name another folder")
    shutil.rmtree(f"{to}.new", ignore_errors=True)
    link_all(kit, f"{to}.new")
    for part in ("bin", "rlibs", "rattle"):
        os.remove(f"{to}.new/{part}")
    shutil.copytree(f"{kit}/bin", f"{to}.new/bin")
    for part in ("rlibs", "rattle"):
        link_all(f"{kit}/{part}", f"{to}.new/{part}")
        for name in os.listdir(f"{libraries}/{part}"):
            shutil.move(f"{libraries}/{part}/{name}", f"{to}.new/{part}/{name}")
    shutil.copy(f"{libraries}/{RECORD}", f"{to}.new/{RECORD}")
    shutil.rmtree(to, ignore_errors=True)
    os.rename(f"{to}.new", to)
