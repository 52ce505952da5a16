"""The formatters, the library for C and Python, and a toolchain with the library, built and installed."""

import os
import shutil
import signal
import sys
import tempfile
import time
from concurrent.futures import ThreadPoolExecutor, as_completed

from support.built import STATIC
from support.command import ROOT, Failed, at_once, need, read, write
from support.crates import crates_of
from support.install import overlay, proved, unproved
from support.install.prefix import put_library, put_program, put_wheel
from support.library import c_library
from support.toolchain import kit, need_rt
from support.version import FORMATTERS, commit, version

EVERYTHING = (*FORMATTERS, "library", "wheel")
# The place of the toolchain that has the library, below the prefix.
TOOLCHAIN = "lib/yezhgulo/toolchain"
# What proving a crate takes, taken over all of them.
MINUTES = 2
# The most memory that a build without proofs was seen to take, with some room.
MEMORY = 1_200_000_000


def say(what, processor=None, clock=None):
    """A line of progress: what is done, and how long it took."""
    times = "" if processor is None else f": {processor / 60:.1f} minutes of processor"
    print(f"install: {what}{times}{'' if clock is None else f', {clock / 60:.1f} by the clock'}", flush=True)


# What is asked for


def repository_of(folder):
    """The top of the repository that a crate's folder is of."""
    top = os.path.dirname(os.path.dirname(folder))
    if not os.path.isfile(f"{top}/crates.txt"):
        raise Failed(f"{folder} is none of {', '.join(EVERYTHING)}, and no folder crates/NAME of a repository with a crates.txt")
    return top


def crates_in(top):
    """The crates of a repository but for libraries that the toolchain has, which are then the toolchain's."""
    return {name: it for name, it in crates_of(top).items() if not os.path.exists(f"{kit()}/rlibs/{name}.rlib")}


class Plan:
    """What is to be built: programs, and the library and the wheel or not, of the crates of one or two repositories."""

    def __init__(self, what):
        folders = [os.path.abspath(it) for it in what if it not in EVERYTHING]
        tops = {repository_of(it) for it in folders}
        if len(tops) > 1:
            raise Failed("name the crates of one repository at a time")
        self.crates, self.handles = crates_in(ROOT), f"{ROOT}/HANDLES"
        for top in tops:
            self.crates, self.handles = {**self.crates, **crates_in(top)}, f"{top}/HANDLES"
        self.programs = [it for it in what if it in FORMATTERS] + [os.path.basename(it) for it in folders]
        for it in self.programs:
            if it not in self.crates or not self.crates[it].is_program:
                listed = " or ".join(f"{top}/crates.txt" for top in tops or {ROOT})
                raise Failed(f"{it} is not a program that {listed} lists: run this in the folder of your repository")
        self.has_wheel, self.has_library = "wheel" in what, "library" in what
        self.parts = self.programs + [STATIC] * (self.has_wheel or self.has_library)


def check_room(folder):
    """Ends the process where nothing can be written to a folder."""
    try:
        os.makedirs(folder, exist_ok=True)
        with tempfile.TemporaryFile(dir=folder):
            pass
    except OSError as error:
        raise Failed(f"nothing can be written to {folder} ({error.strerror}): give another folder by --prefix") from error


# Building. What is built of each part is a file in a folder of its own.


def with_words(plan, room):
    """The crates, of which those with the formatters' `--version` lines are copies that say that there was no proof."""
    crates, number = dict(plan.crates), version()
    of_commit = f", commit {commit()}" if commit() else ""
    for name in {*FORMATTERS} & {*plan.programs}:
        folder = f"{room}/{name}"
        shutil.copytree(f"{crates[name].folder}/src", f"{folder}/src")
        text = read(f"{folder}/src/request.rt")
        if f'"{number}"' not in text:
            raise Failed(f"{name} has another version than the file VERSION: tools/versions says more")
        write(f"{folder}/src/request.rt", text.replace(f'"{number}"', f'"{number} (unproved{of_commit})"'))
        crates[name] = crates[name]._replace(folder=folder)
    return crates


def build_unproved(plan, options, room):
    jobs, crates = max(1, min(options.jobs or at_once(MEMORY), len(plan.parts))), with_words(plan, room)
    say(f"building {' '.join(plan.parts)} without proofs, {jobs} at once, in one to two minutes of processor each")
    builders = {it: unproved.Builder(kit(), crates, room) for it in plan.parts}

    def build(name):
        began = time.monotonic()
        builders[name].build(name, f"{room}/{name}.made")
        say(f"{name} built without its proof", builders[name].seconds, time.monotonic() - began)

    with ThreadPoolExecutor(jobs) as pool:
        try:
            for done in as_completed([pool.submit(build, it) for it in plan.parts]):
                done.result()
        except BaseException:
            for builder in builders.values():
                builder.stop()
            raise


def prover_of(crates, handles, names, room):
    """Proves these crates and those below them, and says how far it is."""
    prover = proved.Prover(crates, handles, room)
    many = len(prover.wanted(names))
    say(f"proving {many} crates: from nothing in some {MINUTES * many} minutes of processor, and more on a busy machine")
    prover.prove(names, say)
    return prover


def build_proved(plan, room):
    """Proves all crates that the parts stand on, and builds the parts."""
    prover = prover_of(plan.crates, plan.handles, plan.parts, room)
    for name in plan.parts:
        prover.build(name, f"{room}/{name}.made")


# The toolchain


def install_toolchain(options):
    plain, crates = kit(), crates_of()
    to = os.path.abspath(os.path.expanduser(options.toolchain or f"{options.prefix}/{TOOLCHAIN}"))
    if any(os.path.exists(f"{plain}/rlibs/{name}.rlib") for name in overlay.NAMED):
        raise Failed(f"the rt on the path is of a toolchain that has the library, {plain}: put the plain one before it")
    check_room(os.path.dirname(to))
    with tempfile.TemporaryDirectory(prefix="yezhgulo-") as room:
        libraries = f"{room}/libraries"
        why = overlay.difference(overlay.unpack(options.libraries, libraries), plain, crates) if options.libraries else "none"
        if why and options.libraries:
            say(f"the libraries of {options.libraries} are not taken, and proved anew: {why}")
            shutil.rmtree(libraries)
        if why:
            prover = prover_of(crates, f"{ROOT}/HANDLES", overlay.NAMED, room)
            overlay.collect(crates, prover.library, overlay.record_of(plain, crates), libraries)
        overlay.make(plain, libraries, to)
    say(f"made {to}, of {plain}, which has to stay where it is")
    say(f"put it first on the path: PATH={to}/bin:$PATH")


# The command


def put_all(plan, prefix, room, is_proved):
    """Installs all that was built, and answers the files."""
    code, placed = f"{room}/{STATIC}.made", []
    for name in plan.programs:
        placed += put_program(name, f"{room}/{name}.made", prefix)
    placed += put_library(code, prefix, is_proved) if plan.has_library else []
    placed += put_wheel(code, f"{prefix}/share/yezhgulo", is_proved) if plan.has_wheel else []
    return placed


def install(plan, options):
    need(c_library.NEEDED if STATIC in plan.parts else {})
    check_room(options.prefix)
    with tempfile.TemporaryDirectory(prefix="yezhgulo-") as room:
        build_unproved(plan, options, room) if options.unproved else build_proved(plan, room)
        placed = put_all(plan, options.prefix, room, not options.unproved)
    say(f"in {options.prefix}: {' '.join(os.path.relpath(it, options.prefix) for it in placed)}")
    if options.unproved:
        say("these were built WITHOUT their proofs: tools/install without --unproved proves them")


def main(options):
    if options.toolchain is not None and (options.whats or options.unproved):
        options.error("--toolchain stands alone: the library of a toolchain is proved")
    options.prefix = os.path.abspath(os.path.expanduser(options.prefix or "~/.local"))
    # So that what was made between is removed where the process is told to stop.
    signal.signal(signal.SIGTERM, lambda number, _: sys.exit(128 + number))
    need_rt()
    try:
        if options.toolchain is None:
            install(Plan(list(dict.fromkeys(options.whats)) or EVERYTHING), options)
        else:
            install_toolchain(options)
    except KeyboardInterrupt:
        return 128 + signal.SIGINT
