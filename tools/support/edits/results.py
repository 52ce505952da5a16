"""What a check says of functions that were edited, and what that shows of the edits."""

import os
import re

from support.command import read

# What a try of an edit comes to. tools/edits says what each means.
CLAUSE, OWN_CODE, NAME, PROVED, UNJUDGED = "clause", "own code", "name", "proved", "not judged"
UNCOMPILED, UNAPPLIED, FORBIDDEN, COMPILED = "does not compile", "does not apply", "forbidden", "compiles"
RESULTS = (CLAUSE, FORBIDDEN, OWN_CODE, NAME, UNCOMPILED, UNAPPLIED, PROVED, COMPILED, UNJUDGED)

# What the check prints: of a function, of a goal that is open, and of an answer that is refused.
VERDICT = re.compile(r"fn (\S+): (.*)", re.S)
OPEN_GOAL = re.compile(r"note: src/\S+: (?:it is not proved|`search` found no proof).*?\(`([^`]+)`\)(.*)", re.S)
REFUSED_ANSWER = re.compile(r"(?:\./)?proofs/(\S+)/[^/]+\.antt:\d+:\d+: error: (?:`([^`]*)`: )?(.*)", re.S)
IS_PROVED = re.compile(r"(?:proved|no holes)\b")
# A function of which the check asks a proof by hand, since it makes none.
NOT_COVERED = re.compile(r"no proof: expected `")
NAME_GONE = re.compile(r"has no field|is not in scope|has no\s+`|was not admitted|is no name")
GOAL_GONE = re.compile(r"`goal\.[^`]*`: module .*has no\s+`", re.S)
# Values at which an open goal is false were found, so no answer can prove it.
FALSE = "allow values at which this goal is false"

# What `rt must-fail` prints of an edit: the beginning of the first message that is not of a name that is gone.
TOLD = re.compile(r"must-fail (\w+)/(\S+\.edit): refused, as it must be: (.*)")
TOLD_GOAL = re.compile(r"note: src/\S+: it is not proved that .*?\(`([\w-]+)")
TOLD_ANSWER = re.compile(r"(?:\./)?proofs/(\S+)/[^/]+\.antt:\d+:\d+: error: `([^`]+)`: (?!record `|`goal\.)")

# The goals of a contract's clauses at a return, also of a closure's, and those of a loop, with the loop's name.
AT_RETURN = re.compile(r"(?:^|-)returns(?:-|$)")
OF_LOOP = re.compile(r"(.+?)-(?:init|preserved|smaller)(?:-|$)")


class Said:
    """What a check said of each function: its verdict, which goals are open and which are wrong, and which names are gone."""

    def __init__(self, crate, printed):
        self.crate, self.verdicts, self.open, self.wrong, self.names, self.goals = crate, {}, {}, {}, {}, {}
        notes = []
        for block in re.split(r"\n(?=\S)", printed):
            verdict, note, answer = VERDICT.match(block), OPEN_GOAL.match(block), REFUSED_ANSWER.match(block)
            if note:
                notes.append(note)
            elif verdict:
                self.verdicts[verdict[1]] = verdict[2]
                for it in notes:
                    (self.wrong if FALSE in it[2] else self.open).setdefault(verdict[1], []).append(it[1])
                notes = []
            elif answer:
                self.answered(f"{crate.name}::{answer[1].replace('/', '::')}", answer[2] or "a proof", answer[3])

    def answered(self, function, goal, why):
        """Takes note of an answer in a file that is refused."""
        kind = self.goals if GOAL_GONE.search(why) else self.names if NAME_GONE.search(why) else self.wrong
        kind.setdefault(function, []).append(goal)

    def judged(self, edit, functions):
        """What an edit of these functions comes to, and why: the goal that is open if the edit is refused."""
        if None in functions:
            return UNJUDGED, "the check names no function like the one that it changes"
        every = [it for it in self.verdicts if any(it == name or it.startswith(f"{name}::") for name in functions)]
        gone = [goal for it in every for kind in (self.goals, self.names) for goal in kind.get(it, [])]
        refused = [(it, goal) for it in every for goal in self.refused(it)]
        clauses = [goal for it, goal in refused if is_of_a_clause(edit, goal, lambda loop: knows_loop(self.crate, it, loop))]
        if clauses:
            return CLAUSE, min(clauses, key=lambda goal: not AT_RETURN.search(goal))
        if refused or gone:
            return (OWN_CODE, refused[0][1]) if refused else (NAME, gone[0])
        if all(IS_PROVED.match(self.verdicts[it]) for it in every):
            return PROVED, "the function is proved with it"
        return UNJUDGED, "its function is open only through one that it calls"

    def refused(self, function):
        """The goals of a function that are open, whatever names its answers use."""
        # An open goal may have its answer under a name that is gone.
        renamed = {kind_of(it) for it in self.goals.get(function, [])}
        found = self.wrong.get(function, []) + [it for it in self.open.get(function, []) if kind_of(it) not in renamed]
        return found + [f"no proof is made of {function}"] * bool(NOT_COVERED.match(self.verdicts[function]))


def knows_loop(crate, function, loop):
    """Whether the crate gives a loop of a function an invariant or a measure. That of a closure has the closure's name first."""
    path = function.partition("::")[2].replace("::", "/")
    file = f"{crate.folder}/proofs/{path}/Invariants.antt"
    given = re.findall(r"^abbrev pub ((?:[\w-]+-)?(?:invariant|decreases)-[\w-]+)", read(file), re.M) if os.path.isfile(file) else []
    return loop in {re.sub(r"\b(invariant|decreases)-", "", name, count=1) for name in given}


def is_of_a_clause(edit, goal, knows):
    """Whether a goal is of a clause: at a return, of a type's invariant, or of that of a loop that was there before the edit."""
    if "-requires" in goal:
        return False
    if AT_RETURN.search(goal) or goal.startswith("invariant_of-"):
        return True
    loop = OF_LOOP.match(goal)
    return bool(loop) and (not edit.brings_a_loop() or knows(loop[1]))


def told_clause(edit, message):
    """The goal of a clause that `rt must-fail` names in the beginning of its message of an edit, or None."""
    found = TOLD_GOAL.match(message) or TOLD_ANSWER.match(message)
    goal = found and found[found.lastindex]
    return goal if goal and is_of_a_clause(edit, goal, lambda loop: False) else None


def kind_of(goal):
    """What a goal keeps where the steps before it have other names: of what it is, and which clause."""
    return "requires" if "-requires" in goal else goal.partition("-")[0], goal.partition("-clause-")[2]
