"""Which inline attributes the sources give a function, by its name in a module of LLVM."""

import functools
import glob
import os
import re

from support.command import read
from support.sources import functions_in, likeness

# The attributes of LLVM for those of the sources.
OF_LLVM = {
    "#[inline]": ("inlinehint",),
    "#[inline(always)]": ("alwaysinline",),
    "#[inline(never)]": ("noinline",),
    "#[cold]": ("cold", "noinline"),
}
# What a name has after the function's own: what LLVM has of it in part, and the types that it is made for.
TAIL = re.compile(r"::<.*|\+.*")


class Inlining:
    """The inline attributes of the functions of crates, whose folders of sources are given by name."""

    def __init__(self, sources):
        self.functions = {}
        for crate, folder in sources.items():
            for path in sorted(glob.glob(f"{folder}/**/*.rt", recursive=True)):
                for it in functions_in(read(path), crate, os.path.relpath(path, folder)):
                    self.functions.setdefault((crate, it.name), []).append(it)

    def of(self, name):
        """The attributes of LLVM of the function of this name in a module: those of the likest one of the crate."""
        return self.of_any(TAIL.sub("", name))

    @functools.lru_cache(maxsize=None)
    def of_any(self, name):
        *path, own = name.split("::")
        found = self.functions.get((path[0], own), []) if path else []
        free = [it for it in found if not it.owner and it.module == "::".join(path)]
        owned = [it for it in found if it.owner] if len(path) > 1 else []

        def rank(it):
            return it.owner == path[-1], it.module == "::".join(path[:-1]), likeness(it.owner, path[-1])

        likest = free[0] if free else max(owned, key=rank, default=None)
        return tuple(word for it in likest.attributes for word in OF_LLVM[it]) if likest else ()
