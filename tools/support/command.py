"""What a command of tools/ is made of: its words, the programs that it runs, and how it ends."""

import argparse
import importlib
import os
import re
import shutil
import subprocess
import sys
import tempfile
from collections import namedtuple
from pathlib import Path

SUPPORT = os.path.dirname(os.path.abspath(__file__))
ROOT = os.path.dirname(os.path.dirname(SUPPORT))

# An option in a usage, whether its value may be left out, the value, and whether the option may come again.
OPTION = re.compile(r"--(\w+)(?: (\[)?([A-Z]+)(?(2)\]))?(\]\.\.)?")
# What a command printed, its status, and the seconds of processor that it took.
Measured = namedtuple("Measured", "printed status seconds")


class Failed(Exception):
    """What was not done, and all that was printed of it."""

    def __init__(self, why, printed=""):
        super().__init__(why)
        self.printed = printed


class Reader(argparse.ArgumentParser):
    """Reads the words of a command by the usage in its help: N is a number, an option before `].. ` may come again, and of two with
    a bar between them one may come."""

    def __init__(self, about):
        usage = re.search(r"^usage: (.*(?:\n {3,}.*)*)", about, re.M)[1]
        super().__init__(usage=usage)
        self.about, either = about, self.add_mutually_exclusive_group()
        self.set_defaults(error=self.error)
        for it in OPTION.finditer(usage):
            name, bracket, value, more = it.groups()
            place = either if "|" in usage[it.start() - 2 : it.start()] + usage[it.end() : it.end() + 2] else self
            how = {"type": int if value == "N" else str, "action": "append" if more else "store"} if value else {"action": "store_true"}
            place.add_argument(f"--{name}", **how, **({"nargs": "?", "const": ""} if bracket else {}))
        for bracket, name, more in re.findall(r"(\[)?\b([A-Z]+)\b(\.\.)?", OPTION.sub("", usage)):
            many = {("[", ".."): "*", ("", ".."): "+", ("[", ""): "?"}.get((bracket, more))
            self.add_argument(name.lower() + "s" * bool(more), nargs=many)

    def format_help(self):
        return self.about


def begin(module, about):
    """Runs the command of a module to its end, whose status is what `main` answers: none is 0. Of a failure it says what it was."""
    try:
        sys.exit(importlib.import_module(f"support.{module}").main(Reader(about).parse_args()))
    except (Failed, OSError, subprocess.SubprocessError) as failed:
        sys.exit(f"{getattr(failed, 'printed', '')}{os.path.basename(sys.argv[0])}: {failed}")


# Files


def read(path):
    return Path(path).read_text(encoding="utf-8")


def content(path):
    with open(path, "rb") as file:
        return file.read()


def write(path, text):
    """Writes a file, in a folder that is made where it is not there. The path."""
    os.makedirs(os.path.dirname(path), exist_ok=True)
    Path(path).write_text(text, encoding="utf-8")
    return path


def put(path, to, mode=0o644):
    """Copies a file to a place, where a running program may have the old one open."""
    os.makedirs(os.path.dirname(to), exist_ok=True)
    shutil.copyfile(path, f"{to}.new")
    os.chmod(f"{to}.new", mode)
    os.replace(f"{to}.new", to)
    return to


def link_all(folder, to):
    """Makes a folder of links to all that another one has."""
    os.makedirs(to)
    for name in os.listdir(folder):
        os.symlink(f"{folder}/{name}", f"{to}/{name}")


# Other programs


def run(words, folder=ROOT, given=b"", seconds=None, **environment):
    """Runs a command, with what it is given on standard input. What it prints, and its status."""
    how = {"stdout": subprocess.PIPE, "stderr": subprocess.STDOUT, "timeout": seconds, "input": given}
    ended = subprocess.run(words, cwd=folder, env={**os.environ, **environment}, **how)
    return ended.stdout.decode(errors="replace"), ended.returncode


def output(words, *how, **more):
    """What a command prints. It has failed where its status is not 0."""
    printed, status = run(words, *how, **more)
    if status:
        raise Failed(f"`{' '.join(words)}` ended with {status}", printed)
    return printed


def ended(process):
    """Waits for a process: its status, as a shell has it where a signal ended it, and the seconds of processor that it took."""
    _, how, used = os.wait4(process.pid, 0)
    process.returncode = 128 + os.WTERMSIG(how) if os.WIFSIGNALED(how) else os.WEXITSTATUS(how)
    return process.returncode, used.ru_utime + used.ru_stime


def measured(words, folder, begun=lambda process: None, **environment):
    """Runs a command, and measures it. `begun` is called with its process."""
    how = {"stdin": subprocess.DEVNULL, "stderr": subprocess.STDOUT, "env": {**os.environ, **environment}}
    with tempfile.TemporaryFile("w+", encoding="utf-8", errors="replace") as out:
        process = subprocess.Popen(words, cwd=folder, stdout=out, **how)
        begun(process)
        status, seconds = ended(process)
        out.seek(0)
        return Measured(out.read(), status, seconds)


def need(packages):
    """Fails where one of these programs is missing, and says which package of Debian has it."""
    missing = [name for name in packages if not shutil.which(name)]
    if missing:
        wanted = " ".join(sorted({packages[name] for name in missing}))
        raise Failed(f"there is no {', '.join(missing)} here: install Debian's packages {wanted}")


def at_once(memory):
    """How many processes that take so many bytes each the processors and the free memory bear at once."""
    free = 1024 * int(re.search(r"MemAvailable: +(\d+)", read("/proc/meminfo"))[1])
    return max(1, min(len(os.sched_getaffinity(0)), free // memory))
