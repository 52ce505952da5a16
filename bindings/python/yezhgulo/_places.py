"""Where the library is looked for. It imports nothing of the package, for `make_wheel.py` runs it before there is one."""

from __future__ import annotations

import os
import sys
from typing import List, Optional

FILE = "libprettyless.so"
# The name of an installed library changes where this package could no longer call it.
SONAME = FILE + ".1"
HOW = (
    "run `tools/install library` in a checkout of yezhgulo, or let the environment variable PRETTYLESS name the library"
)


def installed() -> List[str]:
    """Where `tools/install` puts the library: in the prefix of the user, of this Python, or of the machine."""
    prefixes = (os.path.expanduser("~/.local"), sys.prefix, "/usr/local", "/usr")
    return [os.path.join(prefix, "lib", SONAME) for prefix in dict.fromkeys(prefixes)]


def found(first: List[str]) -> Optional[str]:
    """The file that `PRETTYLESS` names, whether it is there or not; else the first that is there, of these and of those
    that are installed."""
    named = os.environ.get("PRETTYLESS")
    if named:
        return os.path.abspath(named)
    return next(filter(os.path.exists, first + installed()), None)
