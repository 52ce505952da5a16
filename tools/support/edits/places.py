"""The edits of a crate: which texts they exchange, in which functions, and a copy of the crate that has them."""

import os
import re

from support.command import read, write
from support.crates import copy_parts
from support.sources import functions_in, likeness

# The head of a loop.
LOOP_HEAD = re.compile(r"\bfor\b[^;{]*\bin\b|\bwhile\b|\bloop\s*\{")


class Edit:
    """An edit: the pairs of texts that it exchanges, each with its file, and why no clause can refuse it, if it says so."""

    def __init__(self, path):
        self.path, self.name, self.pairs, self.why = path, os.path.basename(path), [], ""
        self.folder = os.path.basename(os.path.dirname(path))
        file = old = None
        for kind, text in re.findall(r"^(file|old|new|why):(?: (.*)|$)", read(path), re.M):
            if kind == "file":
                file = text.strip()
            elif kind == "old":
                old = text
            elif kind == "new":
                self.pairs.append((file, old, text))
            else:
                self.why = text.strip()

    def brings_a_loop(self):
        """Whether it has more loops than what it replaces."""
        return any(len(LOOP_HEAD.findall(new)) > len(LOOP_HEAD.findall(old)) for _, old, new in self.pairs)


def paths_of(function):
    """What may name a function to the check, the least first: itself, or its module. The crate is not in it."""
    module = function.module.partition("::")[2]
    return [it for it in (f"{function.owner or module}::{function.name}".lstrip(":"), module) if it]


def named_among(functions, function):
    """The name that the check gives to a function, or None. A type's own functions are named after its module."""
    if not function.owner:
        name = f"{function.module}::{function.name}"
        return name if name in functions else None
    fit = [it for it in functions if it.endswith(f"::{function.name}") and it.count("::") > 1]

    def rank(it):
        ranks = likeness(it.split("::")[-2], function.owner), it.startswith(f"{function.module}::")
        return ranks[::-1] if function.is_of_trait else ranks

    return max(fit, key=rank) if fit else None


class Copy:
    """A copy of a crate, and the edits that were made in it."""

    def __init__(self, crate, folder):
        self.crate, self.folder, self.texts, self.edits = crate, folder, {}, []
        copy_parts(crate, folder)

    def text(self, file, texts):
        path = f"{self.folder}/{file}"
        return texts.get(file) or self.texts.get(file) or (read(path) if os.path.isfile(path) else "")

    def place_in(self, file, text, at):
        """The function of the file that the text's place is in, or None."""
        if not file.startswith("src/"):
            return None
        number = text.count("\n", 0, at) + 1
        before = [it for it in functions_in(text, self.crate.name, file[len("src/") :]) if it.line <= number]
        lines = text.split("\n")[before[-1].line : number - 1] if before else []
        return before[-1] if before and f"{' ' * before[-1].indent}}}" not in lines else None

    def changed_by(self, edit):
        """The texts of the files that an edit changes, and the functions that it changes; None if it cannot be applied."""
        texts, places = {}, []
        for file, old, new in edit.pairs:
            text = self.text(file, texts)
            if not old or text.count(old) != 1:
                return None
            places.append(self.place_in(file, text, text.index(old)))
            texts[file] = text.replace(old, new)
        return (texts, [it for it in places if it]) if texts else None

    def take(self, edit):
        """Makes an edit, if none was made that changes a function of its own. One outside all functions is made alone."""
        changed = self.changed_by(edit)
        if changed is None:
            return False
        texts, places = changed
        places = {(it.module, it.owner, it.name): it for it in places}
        taken = {key for _, others in self.edits for key in others}
        if self.edits and (not places or not taken or places.keys() & taken):
            return False
        self.edits.append((edit, places))
        self.texts.update(texts)
        return True

    def write(self):
        for file, text in self.texts.items():
            write(f"{self.folder}/{file}", text)
