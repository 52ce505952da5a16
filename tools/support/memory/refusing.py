"""Programs whose requests for memory are refused in turn."""

import itertools
import os
import re
import subprocess
import tempfile
from concurrent.futures import ThreadPoolExecutor
from pathlib import Path

from support import built, command
from support.command import SUPPORT, Failed, content, output, write
from support.memory.runs import Ending, all_runs, is_right, name_of, without_table

# The most that one run may take. They take some milliseconds.
SECONDS = 60
# How many runs are made at once.
PARTS = min(4, os.cpu_count() or 1)
# How a program may ask for memory besides malloc and realloc, which are refused.
OTHER_REQUESTS = {"aligned_alloc", "calloc", "memalign", "mmap", "posix_memalign", "reallocarray", "sbrk"}

# The number of the request that `rt try` refuses in each run. The library makes fewer.
CHECKED = 700
# A run of `rt try`: its name, what it printed, and how it ended.
CHECKED_RUN = re.compile(r"^== (\d+)\n(.*?)(?:^allocations: [^\n]*\n)?^case=\1 run=([^\n]*)$", re.M | re.S)


# Refusing the requests of proved programs


def shim_in(folder):
    path = f"{folder}/refuse.so"
    output(["cc", "-O2", "-shared", "-fPIC", "-o", path, f"{SUPPORT}/memory/refuse.c"])
    return path


def check_requests(program):
    """Fails where a program asks for memory by a call that is not refused."""
    shown = output(["nm", "-D", "--undefined-only", program])
    others = OTHER_REQUESTS & {line.split()[-1].split("@")[0] for line in shown.splitlines()}
    if others:
        raise Failed(f"{program} also calls {' '.join(sorted(others))}")


def end_of(run, program, environment):
    """Makes a run in a folder of its own."""
    with tempfile.TemporaryDirectory() as folder:
        for name, text in run.files.items():
            Path(folder, name).write_bytes(text)
        how = {"stdout": subprocess.PIPE, "stderr": subprocess.PIPE, "timeout": SECONDS}
        ended = subprocess.run([program, *run.words], cwd=folder, input=run.given, env=environment, **how)
        files = {name: content(f"{folder}/{name}") for name in os.listdir(folder)}
    return Ending(ended.returncode, ended.stdout, ended.stderr, files)


def refused_at(run, program, shim, number):
    """How a run ends in which the request of this number is refused, if it comes so far. It fails where it ended wrongly."""
    with tempfile.TemporaryDirectory() as folder:
        mark = f"{folder}/refused"
        try:
            ending = end_of(run, program, {"LD_PRELOAD": shim, "REFUSE": str(number), "REFUSED": mark})
        except subprocess.TimeoutExpired as error:
            raise Failed(f"{name_of(run)}, request {number}: {error}") from error
        is_refused = os.path.exists(mark)
    if not is_right(run, ending, is_refused):
        raise Failed(f"{name_of(run)}, request {number}, {'' if is_refused else 'not '}refused: {ending}")
    return ending if is_refused else None


def refuse_each(run, program, shim):
    """Makes a run for each of its requests, and one more. How many requests there are, or how a run went wrong."""
    try:
        check_requests(program)
        each = (refused_at(run, program, shim, number) for number in itertools.count(1))
        endings = list(itertools.takewhile(lambda it: it is not None, each))
    except Failed as failed:
        return failed
    if not endings or run.other and run.other not in endings:
        return Failed(f"{name_of(run)}: {len(endings)} requests were refused, and none led to its other ending")
    return len(endings)


def refuse_all(program_of):
    """Refuses each request of each run. How many requests there were."""
    runs = all_runs()
    programs = {name: program_of(name) for name in sorted({it.program for it in runs})}
    with tempfile.TemporaryDirectory() as folder, ThreadPoolExecutor(PARTS) as pool:
        shim = shim_in(folder)
        results = list(pool.map(lambda it: refuse_each(it, programs[it.program], shim), runs))
    for run, result in zip(runs, results):
        print(result if isinstance(result, Failed) else f"{name_of(run)}: {result}")
    wrong = [it for it in results if isinstance(it, Failed)]
    if wrong:
        raise Failed(f"{len(wrong)} of {len(runs)} runs were wrong")
    return sum(results)


# Refusing those of a program that `rt try` builds


def checked_runs():
    """What `test_refusals` printed and how it ended, after 1, 2, .. requests of its own."""
    counts = range(1, CHECKED + 1)
    with tempfile.TemporaryDirectory() as folder:
        for count in counts:
            write(f"{folder}/{count}", str(count))
        words = ["rt", "try", "--steps", "1", "--cases", folder, "--fail-alloc", str(CHECKED)]
        tried, status = command.run(words, built.folder_of("test_refusals"))
    runs = {int(count): (printed, ended) for count, printed, ended in CHECKED_RUN.findall(tried)}
    if status or len(runs) != CHECKED:
        raise Failed(f"{len(runs)} runs of {CHECKED}, status {status}", tried)
    return [runs[count] for count in counts]


def refuse_checked():
    """Has `rt try` refuse each request that the library makes in `test_refusals`. How many there were."""
    whole = content(f"{built.folder_of('test_refusals')}/stdout").decode()
    other = without_table(whole.encode()).decode()
    is_own = {whole: False, other: False, whole.replace("own: granted", "own: refused"): True}
    owns = []
    for printed, ended in checked_runs():
        if printed not in is_own or not ended.startswith("ended status=0 "):
            raise Failed(f"{printed}{ended}")
        owns.append(is_own[printed])
    # In the first runs a request after the library's is refused, and in the last one the request before them.
    count = owns.count(False)
    after = CHECKED - 1 - count
    if not after or owns != [True] * after + [False] * count + [True]:
        raise Failed("a request was left out; where there are too many, CHECKED has to be larger")
    return count


def main(options):

    def program_of(name):
        return os.path.abspath(f"{options.programs}/{name}") if options.programs else built.program(name)

    count = refuse_checked() if options.checked else refuse_all(program_of)
    print(f"refuse_memory: {count:,} requests were refused in turn, and no run was wrong")
