"""What the runs of the prover below a process take, by kind, as /proc tells while they run."""

import os
import threading
from collections import namedtuple

from support.command import content

# How many seconds go by between two looks. What a run takes after the last look at it is not counted.
PAUSE = 1
TICKS = os.sysconf("SC_CLK_TCK")

# A process: its parent, what tells it from others of its number, and the seconds of processor that it and the ended ones
# of those that it started have taken.
Process = namedtuple("Process", "parent start seconds")


def process_of(number):
    """The process of this number, or None where it has ended."""
    try:
        fields = content(f"/proc/{number}/stat").rpartition(b")")[2].split()
    except OSError:
        return None
    return Process(int(fields[1]), fields[19], sum(map(int, fields[11:15])) / TICKS)


def words_of(number):
    """The words of a process, if it is one of the prover."""
    words = content(f"/proc/{number}/cmdline").split(b"\0")
    return words if os.path.basename(words[0]) == b"rattle" else []


def kind_of(number):
    """What a process is there for, if it is one of the prover."""
    words = words_of(number)
    if not words:
        return None
    # rt tries an edit on a copy of the crate.
    is_edit = os.path.basename(os.readlink(f"/proc/{number}/cwd")).startswith("rt-edit-")
    return "edits" if is_edit else "proofs of tests" if b"--test" in words else "proofs"


def crate_of(number):
    """The crate that a process proves, if it is one of the prover."""
    words = words_of(number)
    return words[words.index(b"--crate-name") + 1].decode() if b"--crate-name" in words else None


class ProofTimes(threading.Thread):
    """Looks at what runs below a process until it is told to stop."""

    def __init__(self, root, kind_of=kind_of):
        super().__init__(daemon=True)
        self.root, self.kind_of, self.seconds, self.stopping = root, kind_of, {}, threading.Event()

    def run(self):
        while not self.stopping.wait(PAUSE):
            self.look()

    def look(self):
        """Notes what each run of the prover below the root has taken up to now."""
        numbers = [int(it) for it in os.listdir("/proc") if it.isdigit()]
        found = {it: process for it, process in ((it, process_of(it)) for it in numbers) if process}
        below = {it: [] for it in found}
        for it, process in found.items():
            below.setdefault(process.parent, []).append(it)
        self.look_below(self.root, found, below)

    def look_below(self, number, found, below):
        """Does so from one process on. What the copies of a run take is part of that run."""
        for it in below.get(number, []):
            try:
                kind = self.kind_of(it)
            except OSError:  # The process has ended.
                continue
            if kind:
                self.seconds[it, found[it].start] = kind, taken(it, found, below)
            else:
                self.look_below(it, found, below)

    def of(self, wanted):
        return sum(seconds for kind, seconds in list(self.seconds.values()) if kind == wanted)

    def stop(self):
        self.stopping.set()
        self.join()
        return {kind: self.of(kind) for kind, _ in self.seconds.values()}


def taken(number, found, below):
    return found[number].seconds + sum(taken(it, found, below) for it in below[number])
