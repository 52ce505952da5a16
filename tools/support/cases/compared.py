"""Programs on their cases, and what came of each beside what its case says."""

import glob
import os
import tempfile
from concurrent.futures import ProcessPoolExecutor

from support import built
from support.cases.language import Beginning, cases_of
from support.cases.runs import after, run
from support.command import ROOT, SUPPORT, output, put
from support.json_values import value_line

CASES = f"{ROOT}/cases"
SHOWN = 400


# Comparing


def shown(value, begin=0):
    """The part of a text that a difference shows, or another value as it is."""
    if not isinstance(value, bytes) or len(value) <= SHOWN:
        return repr(value)
    return f"{value[begin : begin + SHOWN]!r}, a part of {len(value)} bytes"


def first_other(found, wanted):
    """A little before the place where two texts differ."""
    if not isinstance(found, bytes) or not isinstance(wanted, bytes):
        return 0
    return max(0, len(os.path.commonprefix([found, wanted])) - SHOWN // 4)


def difference(what, found, wanted):
    """A line for each of what was found and what is wanted, where they differ."""
    if found.startswith(wanted) if isinstance(wanted, Beginning) else found == wanted:
        return []
    begin = first_other(found, wanted)
    return [f"{what} is {shown(found, begin)}\n    and not {shown(wanted, begin)}"]


def differences(outcome, wanted):
    return [line for what in wanted for line in difference(what, outcome[what], wanted[what])]


# What is compared of a case, of which there was a run. Each answers the differences.


def check_outcome(case, ran):
    """The status, what is written, the files, and the calls."""
    wanted = {what: case[what] for what in ("status", "stdout", "stderr")}
    found = differences(ran.outcome, {**wanted, "files": after(case, ran.files)})
    return found + (difference("calls", ran.calls, case["calls"]) if case["calls"] else [])


def check_again(case, tools, ran):
    """What is written is laid out as itself."""
    written = ran.outcome["stdout"]
    again = run(case.having(case.place, {"stdin": written}), tools)
    return difference("stdout of its stdout", again.outcome["stdout"], written)


def check_value(case, _, ran):
    """What is written has the value of standard input, and is the line that has it where `value` says so."""
    written = ran.outcome["stdout"]
    return difference("value", written if case["value"] == "on one line" else value_line(written), value_line(case["stdin"]))


def check_failed(case, failed, written):
    """A run of which a call failed comes out as `failure` says, and wrote a part of what the run wrote where none failed."""
    status, stderr = case["failure"]
    found = differences(failed.outcome, {"status": status, "stderr": stderr, "files": failed.files})
    part = failed.outcome["stdout"]
    return found + difference("part of stdout", part, written[: len(part)])


def check_failing(case, tools, ran):
    """Each call fails in turn, or each of some names. A run comes out as where none failed only if it passes over the call."""
    names = case["fails"][1:] or ran.calls
    failing = [number for number, call in enumerate(ran.calls, 1) if call in names]
    runs = {number: run(case, tools, number) for number in failing}
    passed = [number for number in failing if runs[number].outcome == ran.outcome]
    found = difference("calls that are passed over", [ran.calls[it - 1] for it in passed], case["passed over"])
    failed = [check_failed(case, runs[it], ran.outcome["stdout"]) for it in failing if it not in passed]
    return found + sum(failed, [])


CHECKS = {"again": check_again, "value": check_value, "fails": check_failing}


def check(case, tools):
    try:
        ran = run(case, tools)
        others = [CHECKS[kind](case, tools, ran) for kind in CHECKS if case[kind]]
    except Exception as error:  # What is wrong with a case ends that case alone.
        return [f"{type(error).__name__}: {error}"]
    return list(dict.fromkeys(sum(others, check_outcome(case, ran))))


# The programs


def made_ready(names, folder, room):
    """Puts the programs, and what has calls fail, into folders of tools, one for each compiler that built them."""
    os.umask(0o022)  # Any user may run what is copied here.
    os.chmod(room, 0o711)
    output(["gcc", "-O1", "-shared", "-fPIC", "-o", f"{room}/fail.so", f"{SUPPORT}/cases/fail.c", "-ldl"])
    for name in names:
        for number, path in enumerate([f"{folder}/{name}"] if folder else built.builds(name)):
            put(path, f"{room}/{number}/{name}", 0o755)
            put(f"{room}/fail.so", f"{room}/{number}/fail.so", 0o755)


def built_cases(cases, room):
    """Each case with each folder of tools that has its program. Those that are run as root are left out where this is not."""
    folders = sorted(it.path for it in os.scandir(room) if it.is_dir())
    cases = [it for it in cases if it["as"] != "root" or os.geteuid() == 0]
    return [(case, tools) for tools in folders for case in cases if os.path.exists(f"{tools}/{case.program}")]


def check_all(pairs):
    """Prints each difference. How many cases have one."""
    bad = 0
    with ProcessPoolExecutor(os.cpu_count()) as pool:
        for (case, _), found in zip(pairs, pool.map(check, *zip(*pairs), chunksize=4)):
            bad += bool(found)
            for it in found:
                print(f"{os.path.relpath(case.place, ROOT)}: {case.title}\n  {it}")
    return bad


def main(options):
    known = sorted(it.name for it in os.scandir(CASES) if it.is_dir())
    names = options.names or known
    if not set(names) <= set(known):
        options.error(f"the programs with cases are {', '.join(known)}")
    with tempfile.TemporaryDirectory() as room:
        made_ready(names, options.programs, room)
        paths = [(path, name) for name in names for path in sorted(glob.glob(f"{CASES}/{name}/*.cases"))]
        cases = [case for path, name in paths for case in cases_of(path, name)]
        pairs = built_cases(cases, room)
        bad = check_all(pairs)
    print(f"programs: {len(cases):,} cases of {len(names)} programs, {len(pairs):,} with each build: {bad or 'none'} wrong")
    return 1 if bad else 0
