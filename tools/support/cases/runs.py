"""Runs a program on a case, in a folder of its own."""

import collections
import errno
import os
import resource
import signal
import stat
import subprocess
import tempfile
from pathlib import Path

from support.command import content

NOBODY = 65534
SECONDS = 60
STREAMS = ("stdin", "stdout", "stderr")


# The files of a run, which stand in the folder that the process is in


def make_files(case):
    for name, text in case["file"].items():
        os.makedirs(os.path.dirname(name) or b".", exist_ok=True)
        with open(name, "wb") as file:
            file.write(text)
    for name, text in case["pipe"].items():
        make_pipe(name, text)
    for name, to in case["link"].items():
        os.symlink(to, name)
    for name, to in case["hard link"].items():
        os.link(to, name)
    for name, mode in case["mode"].items():
        os.chmod(name, int(mode, 8))


def make_pipe(name, text):
    """Makes a pipe with a name, and a process that ends once a reader has taken the text."""
    os.mkfifo(name)
    if os.fork() == 0:
        signal.alarm(SECONDS)
        with open(name, "wb") as pipe:
            pipe.write(text)
        os._exit(0)


def paths():
    return [os.path.join(at, name)[2:] for at, folders, files in os.walk(b".") for name in [*folders, *files]]


def give_away():
    """Gives all to the user that programs are run as, where this is root."""
    for path in [b".", *paths()] if os.geteuid() == 0 else []:
        os.lchown(path, NOBODY, NOBODY)


def text_at(path):
    """The text of a file that may be read, or where a link leads."""
    if os.path.islink(path):
        return os.readlink(path)
    return content(path) if os.path.isfile(path) and os.access(path, os.R_OK) else None


def marks():
    """What tells of each regular file whether it is the same one."""
    known = {path: os.lstat(path) for path in paths()}
    return {path: (it.st_ino, it.st_mtime_ns) for path, it in known.items() if stat.S_ISREG(it.st_mode)}


def files_now(before):
    """Of each file its permissions and its owner, whether it is the one that it was before, and its text."""
    now, known = marks(), {path: os.lstat(path) for path in paths()}
    return {path: (f"{it.st_mode:o} of {it.st_uid}", now.get(path) == before.get(path), text_at(path)) for path, it in known.items()}


def after(case, files):
    """What the files are to become: new ones are the old one's owner's, with its permissions. All others are as they were."""
    return {**files, **{name: (files[name][0], False, text) for name, text in case["new"].items()}}


# The process


def opened(what, name):
    """What a program gets as this stream, which is a text or a word for what takes or gives none."""
    if isinstance(what, bytes):
        return subprocess.PIPE
    if what in ("full", "folder"):
        return os.open("/dev/full", os.O_WRONLY) if what == "full" else os.open(".", os.O_RDONLY)
    if what != "closed":
        raise ValueError(f"{name} is neither a text nor one of the words for none: {what}")
    if name == "stdin":
        return subprocess.DEVNULL
    read, write = os.pipe()
    os.close(read)
    return write


def begin(case):
    """Sets the limits and the user of the new process before the program starts."""
    resource.setrlimit(resource.RLIMIT_CORE, (0, 0))
    if case["room"] is not None:
        signal.signal(signal.SIGXFSZ, signal.SIG_IGN)
        resource.setrlimit(resource.RLIMIT_FSIZE, (case["room"], case["room"]))
    if os.geteuid() == 0 and case["as"] != "root":
        os.setgroups([])
        os.setgid(NOBODY)
        os.setuid(NOBODY)
    if case["stdin"] == "closed":
        os.close(0)


def environment_of(case, tools, log, failing):
    """The environment of a run, of which the call with this number fails."""
    environment = {"PATH": "/usr/bin:/bin", "LANG": "C.UTF-8"}
    if case["takes"]:
        environment["FAIL_TAKES"] = str(case["takes"])
    if case["fails"]:
        number = 0 if case["fails"][0] == "nothing" else getattr(errno, case["fails"][0])
        environment.update(FAIL_AT=str(failing), FAIL_WITH=str(number))
    if case["changes"]:
        environment["FAIL_CHANGED"], environment["FAIL_BEFORE"] = case["changes"]
    if case["takes"] or case["fails"] or case["calls"] or case["changes"]:
        environment.update(LD_PRELOAD=f"{tools}/fail.so", FAIL_LOG=log)
    return environment


def ended(process, given):
    try:
        written = process.communicate(given, timeout=SECONDS)
    except subprocess.TimeoutExpired:
        process.kill()
        written = process.communicate()
    return (*written, process.returncode)


def run_here(case, tools, log, failing):
    """The status of a run in this folder, and what it wrote: of what takes no text, its word."""
    streams = {name: opened(case[name], name) for name in STREAMS}
    how = {**streams, "env": environment_of(case, tools, log, failing), "preexec_fn": lambda: begin(case)}
    process = subprocess.Popen([case.program, *case["words"]], executable=f"{tools}/{case.program}", **how)
    for it in streams.values():
        if it >= 0:
            os.close(it)
    stdout, stderr, status = ended(process, case["stdin"] if streams["stdin"] == subprocess.PIPE else None)
    taken = {"stdout": stdout, "stderr": stderr}
    return {"status": status, **{name: case[name] if it is None else it for name, it in taken.items()}}


# What came of a run: its outcome, the files before it, and the calls that were written down.
Ran = collections.namedtuple("Ran", "outcome files calls")


def run(case, tools, failing=0):
    """Runs a case. The program stands in this folder of tools, and the call of this number fails."""
    with tempfile.TemporaryDirectory() as room:
        log = Path(room, "log")
        log.touch()
        os.mkdir(f"{room}/files")
        os.chmod(room, 0o711)
        log.chmod(0o666)
        os.chdir(f"{room}/files")
        make_files(case)
        give_away()
        before = marks()
        files = files_now(before)
        outcome = {**run_here(case, tools, str(log), failing), "files": files_now(before)}
        os.chdir("/")
        return Ran(outcome, files, log.read_text().split())
