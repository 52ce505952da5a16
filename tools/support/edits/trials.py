"""Edits tried in rounds, in copies of their crates, and what is said of them."""

import glob
import os
import re
import shutil
import tempfile
import threading
from concurrent.futures import ThreadPoolExecutor

from support.command import ROOT, Failed, at_once, measured, output, run
from support.crates import below, crates_of, is_newer, with_below
from support.edits.places import Copy, Edit, named_among, paths_of
from support.edits.results import CLAUSE, COMPILED, NAME, OWN_CODE, RESULTS, TOLD, UNAPPLIED, FORBIDDEN, UNCOMPILED, UNJUDGED
from support.edits.results import Said, told_clause
from support.toolchain import need_rt, prover

OTHERS, GATE, FORBIDS = "edits", "must-fail", "must-not-compile"
# How many edits may say why no clause refuses them.
MOST_EXCUSED = 30
# What one check may take, in bytes.
MEMORY = 4_000_000_000
# What the folder of a copy begins with: by that tools/in_turn tells the tries of edits from other proofs.
COPY = "rt-edit-"
PRINTING = threading.Lock()

# What the check prints where it did not reach the prover: for code that does not compile, and for a library that does not fit.
NO_CODE = re.compile(r"\berror\[[\w-]+\]")
NO_OWNER = re.compile(r"\berror\[(?:borrow-[\w-]+|private-field)\]")
NO_PATH = re.compile(r"rattle: error: `[^`]*` has no function `([^`]+)`|rattle: error: `([^`]+)` fits")
NO_FIT = re.compile(r"module .Rattle-(\w+)-.*Run the lower steps again")
NO_PLACE = (UNAPPLIED, "it has no pair, or an `old:` text that does not stand in its file once")


def edits_of(crate, folders):
    return [Edit(path) for folder in folders for path in sorted(glob.glob(f"{crate.folder}/{folder}/*.edit"))]


class Trial:
    """The edits of one crate, tried in rounds."""

    def __init__(self, crate, edits, crates, results):
        libraries = {it.name: it.rlib for it in below([crate.name], crates)}
        self.crate, self.words = crate, ["nice", "-n", "5", *prover("check", crate, libraries), "--allow-holes"]
        self.rounds, self.seconds, self.edits = 0, 0.0, edits
        # What is known of edits before.
        self.results = {it: results[it] for it in edits if it in results}

    def run(self):
        """Tries all edits of which nothing is known, and gives the trial itself."""
        with tempfile.TemporaryDirectory(prefix=f"edits-{self.crate.name}-") as folder:
            self.begin(f"{folder}/kept")
            for edit in self.edits:
                if edit.folder == FORBIDS:
                    self.results[edit] = self.compiled(edit, f"{folder}/{COPY}{edit.name}")
            left = [it for it in self.edits if it not in self.results]
            while left:
                left = self.round(left, f"{folder}/{COPY}{self.rounds}")
        return self

    def compiled(self, edit, folder):
        """What an edit comes to whose types, borrows and private fields alone are checked."""
        copy = Copy(self.crate, folder)
        if not copy.take(edit):
            return NO_PLACE
        copy.write()
        printed, status, seconds = measured([*self.words, "--only", ""], copy.folder)
        self.seconds += seconds
        is_code, failed = NO_CODE.search(printed), UNJUDGED if status else COMPILED
        return FORBIDDEN if NO_OWNER.search(printed) else UNCOMPILED if is_code else failed, first_error(printed)

    def begin(self, kept):
        """Begins with what `rt check` kept of the crate. A check replaces such files, and changes none."""
        begun, self.kept = f"{self.crate.folder}/out/incremental", kept
        if os.path.isdir(begun):
            shutil.copytree(begun, kept, copy_function=os.link)
        os.makedirs(kept, exist_ok=True)

    def round(self, edits, folder):
        """Tries as many edits as one copy can take, and gives those that are to be tried again."""
        copy = Copy(self.crate, folder)
        left = [it for it in edits if not copy.take(it)]
        if not copy.edits:
            self.results.update(dict.fromkeys(left, NO_PLACE))
            return []
        copy.write()
        again = self.tried(copy)
        shutil.rmtree(folder)
        return [*left, *again]

    def checked(self, copy):
        """What the check of the functions that were edited prints, and its status; of the whole crate where it knows none."""
        paths = [paths_of(it) for _, places in copy.edits for it in places.values()]
        while True:
            only = [word for it in paths for word in ("--only", it[0])] if all(paths) else []
            printed, status, seconds = measured([*self.words, "--incremental", self.kept, *only], copy.folder)
            self.seconds += seconds
            unknown = NO_PATH.search(printed)
            if not unknown or not only:
                return printed, status
            name = unknown[1] or unknown[2]
            paths = [[other for other in it if other != name] for it in paths]

    def tried(self, copy):
        """Checks a copy, and gives those of its edits that are to be tried again."""
        printed, status = self.checked(copy)
        self.rounds += 1
        edits = [edit for edit, _ in copy.edits]
        unfit = NO_FIT.search(printed)
        if unfit:
            raise Failed(f"the library of {unfit[1]} fits no other here: run rt lib in its folder")
        if not re.search(r"^(?:only=\d+ )?holes=\d+", printed, re.M):
            return self.halved(edits, printed, status)
        said, again = Said(self.crate, printed), []
        for edit, places in copy.edits:
            functions = [named_among(said.verdicts, it) for it in places.values()]
            result = said.judged(edit, functions or list(said.verdicts))
            if result[0] == UNJUDGED and len(edits) > 1:
                again.append(edit)
            else:
                self.results[edit] = result
        # Where none of several edits was judged, one of them is tried alone.
        return self.halved(again, printed, status) if len(again) == len(edits) else again

    def halved(self, edits, printed, status):
        """Tries the edits of a round that did not end well in two rounds, down to the one whose fault it is."""
        if len(edits) > 1:
            half = len(edits) // 2
            with tempfile.TemporaryDirectory(prefix=f"edits-{self.crate.name}-") as folder:
                return [it for part in (edits[:half], edits[half:]) for it in self.round(part, f"{folder}/{COPY}{part[0].name}")]
        error = first_error(printed)
        self.results[edits[0]] = (UNCOMPILED, error) if NO_CODE.search(printed) else (UNJUDGED, f"status {status}: {error}")
        return []

    def bad(self):
        return [it for it in self.edits if not may_come_to(it, self.results[it][0])]


def first_error(printed):
    lines = [it for it in printed.split("\n") if it.strip()]
    return next((it for it in lines if "error" in it), lines[-1] if lines else "")[:200]


def may_come_to(edit, result):
    if edit.folder == FORBIDS:
        return result == FORBIDDEN
    is_excused = edit.folder == OTHERS and edit.why and result in (OWN_CODE, NAME)
    return result == CLAUSE or bool(is_excused)


def told_by_rt(wanted):
    """What edits came to of which `rt must-fail` names a clause. After `rt ci` it tries none again, and says what came then."""
    printed, _ = run(["rt", "must-fail", *[crate.name for crate, _ in wanted]])
    told = {(it[1], it[2]): it[3] for it in TOLD.finditer(printed)}
    found = {it: told_clause(it, told.get((crate.name, it.name), "")) for crate, edits in wanted for it in edits}
    return {it: (CLAUSE, goal) for it, goal in found.items() if goal}


def make_libraries(wanted, crates):
    """Has `rt lib` make the libraries below the crates that are missing or older than their source."""
    for library in below(wanted, crates):
        files = [it for crate in with_below([library.name], crates) for it in crate.sources()]
        if not is_newer(library.rlib, files, os.path.getmtime):
            say(f"edits: rt lib makes the library of {library.name}")
            output(["rt", "lib"], library.folder)


def say(line):
    with PRINTING:
        print(line, flush=True)


def report(trial, show):
    """Prints the line of a crate, and those of its edits that no clause refuses."""
    counts = f"{len(trial.edits)} edits, {len(trial.bad())} bad; {trial.rounds} rounds, {trial.seconds:.0f} processor seconds"
    lines = [f"{trial.crate.name}: {counts}"]
    for edit in trial.edits:
        result, why = trial.results[edit]
        if show or result not in (CLAUSE, FORBIDDEN):
            excuse = f" (its file says why: {edit.why})" if may_come_to(edit, result) and edit.why else ""
            lines.append(f"  {os.path.relpath(edit.path, ROOT)}: {result}: {why}{excuse}")
    say("\n".join(lines))


def asked(options, crates):
    """The crates to try, each with its edits."""
    folders = (GATE, FORBIDS) if options.gate else (GATE, OTHERS, FORBIDS) if options.all else (OTHERS,)
    lacking = [it for it in options.names if it not in crates or not edits_of(crates[it], folders)]
    if lacking:
        raise Failed(f"{' '.join(lacking)}: crates.txt names no such crate, or it has no edits")
    found = [(it, edits_of(it, folders)) for name, it in crates.items() if not options.names or name in options.names]
    return [(crate, edits) for crate, edits in found if edits]


def main(options):
    crates = crates_of()
    wanted = asked(options, crates)
    need_rt()
    results = told_by_rt(wanted) if options.gate else {}
    make_libraries([crate.name for crate, edits in wanted if any(it not in results for it in edits)], crates)

    def tried(crate, edits):
        trial = Trial(crate, edits, crates, results).run()
        report(trial, options.show)
        return trial

    with ThreadPoolExecutor(max(1, options.jobs or at_once(MEMORY))) as pool:
        trials = list(pool.map(tried, *zip(*wanted)))
    # The edits of all crates that say why no clause refuses them.
    return summed_up(trials, [edit for it in crates.values() for edit in edits_of(it, (OTHERS,)) if edit.why])


def summed_up(trials, excused):
    bad = sum(len(it.bad()) for it in trials)
    minutes = sum(it.seconds for it in trials) / 60
    results = [result for it in trials for result, _ in it.results.values()]
    counts = ", ".join(f"{results.count(it)} {it}" for it in RESULTS)
    print(f"edits: {sum(len(it.edits) for it in trials)} of {len(trials)} crates, {bad} bad; {minutes:.0f} processor minutes")
    print(f"edits: {counts}")
    if len(excused) > MOST_EXCUSED:
        print(f"edits: {len(excused)} files have a line `why: `, and {MOST_EXCUSED} may")
    return 1 if bad or len(excused) > MOST_EXCUSED else 0
