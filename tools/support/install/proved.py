"""Proves crates, and builds programs and static libraries of them.

The crates and those below them are copied without their edits, and `rt ci` proves the copy: each crate once, as many at
once as processors and memory bear. What a run on this machine proved of the same files is taken as it is.
"""

import os
import re
import shutil
import subprocess
import time

from support.command import Failed, ended, write
from support.crates import PARTS, below, copy_parts, with_below
from support.proof_times import ProofTimes, crate_of
from support.toolchain import prove_static

# What `rt ci` runs a program on.
RUN_ON = ("args", "stdin", "stdout", "status", "data")
DONE = re.compile(r"rt: (\w+) (proved|NOT PROVED|is kept:.*)")


class Prover:
    """Proves crates, which are given by name with those below them, in a folder for what is made between."""

    def __init__(self, crates, handles, room):
        self.crates, self.handles, self.root = crates, handles, f"{room}/repository"
        # The crates that this run proved, and those that earlier ones did.
        self.proved, self.kept = [], []

    def wanted(self, names):
        """The crates that `rt ci` is to prove: all that are named but static libraries, and those below them."""
        static = [it for it in names if self.crates[it].is_static]
        found = [*with_below([it for it in names if it not in static], self.crates), *below(static, self.crates)]
        return list({it.name: it for it in found}.values())

    def copy(self, wanted):
        os.makedirs(f"{self.root}/.git")
        write(f"{self.root}/crates.txt", "".join(f"{it.line}\n" for it in wanted))
        if os.path.exists(self.handles):
            shutil.copy(self.handles, f"{self.root}/HANDLES")
        for it in wanted:
            copy_parts(it, f"{self.root}/crates/{it.name}", (*PARTS, *RUN_ON))

    def prove(self, names, say):
        """Proves these crates and those below them, and says of each how long it took."""
        wanted = self.wanted(names)
        self.copy(wanted)
        began, printed = time.monotonic(), []
        how = {"stdin": subprocess.DEVNULL, "stdout": subprocess.PIPE, "stderr": subprocess.STDOUT, "errors": "replace"}
        ran = subprocess.Popen(["rt", "ci"], cwd=self.root, universal_newlines=True, **how)
        times = ProofTimes(ran.pid, crate_of)
        times.start()
        try:
            for line in ran.stdout:
                printed.append(line)
                self.read(line, times, say)
        except BaseException:
            ran.terminate()
            raise
        _, seconds = ended(ran)
        times.stop()
        lacking = [it.name for it in wanted if it.name not in {*self.proved, *self.kept}]
        # The status is also that of programs, which `rt ci` runs on their examples: those are tests, and nothing here.
        if lacking:
            raise Failed(f"not proved: {' '.join(lacking)}", "".join(printed[-200:]))
        say(f"{len(self.proved)} crates proved and {len(self.kept)} kept", seconds, time.monotonic() - began)

    def read(self, line, times, say):
        done = DONE.match(line)
        if done and done[2].startswith("is kept:"):
            self.kept.append(done[1])
            say(f"{done[1]} kept: an earlier run on this machine proved it")
        elif done:
            self.proved += [done[1]] * (done[2] == "proved")
            say(f"{done[1]} {done[2]}", times.of(done[1]))

    def library(self, crate):
        return crate._replace(folder=f"{self.root}/crates/{crate.name}").rlib

    def build(self, name, to):
        """Copies a program, or proves a static library over the libraries below it, and builds its archive."""
        if not self.crates[name].is_static:
            shutil.copy(f"{self.root}/crates/{name}/out/{name}", to)
            return
        libraries = {it.name: self.library(it) for it in below([name], self.crates)}
        printed, status = prove_static(self.crates[name], libraries, to)
        if status:
            raise Failed(f"{name} is not proved", printed)
