"""Commands one after the other, and a table of the time that each took."""

import shlex
import subprocess
import sys
import time
from collections import namedtuple

from support.command import ended
from support.proof_times import ProofTimes

# A command that was run: its status, and the seconds that it took, in all and by the kinds of proofs.
Part = namedtuple("Part", "command status clock processor proofs")


def run(command):
    began = time.monotonic()
    try:
        started = subprocess.Popen(shlex.split(command))
    except OSError as error:
        print(error, file=sys.stderr)
        return Part(command, 127, 0, 0, {})
    times = ProofTimes(started.pid)
    times.start()
    status, seconds = ended(started)
    return Part(command, status, time.monotonic() - began, seconds, times.stop())


def row(name, clock, processor):
    """A row of the table, of seconds, in minutes. The clock says nothing of what runs beside others."""
    return f"{name:<24}{'' if clock is None else f'{clock / 60:.1f}':>10}{processor / 60:>12.1f}"


def rows_of(part):
    kinds = [row(f"  {kind}", None, seconds) for kind, seconds in sorted(part.proofs.items())]
    return [row(part.command, part.clock, part.processor), *kinds]


def table(parts):
    together = row("together", sum(it.clock for it in parts), sum(it.processor for it in parts))
    head = f"{'minutes of':<24}{'clock':>10}{'processor':>12}"
    return "\n".join([head, *(it for part in parts for it in rows_of(part)), together])


def main(options):
    parts = []
    for command in options.commands:
        parts.append(run(command))
        if parts[-1].status:
            break
    print(f"\n{table(parts)}")
    if parts[-1].status:
        print(f"in_turn: {parts[-1].command} failed, with status {parts[-1].status}")
    return parts[-1].status
