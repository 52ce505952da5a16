"""The comparisons, and the command that makes them."""

import os

from support import built
from support.compare import faults, layouts, patches, toml, values

# Of each the peer that is missing here, if one is, the program that it runs, if it runs one, and the call that compares. That
# takes the program and the options, prints each difference, and answers a line and how many differences there were.
COMPARISONS = {
    "values": ("", "jsonfmt", values.compare),
    "faults": ("", "jsonfmt", faults.compare),
    "toml": (toml.LACKING, "tomlfmt", toml.compare),
    "patches": (patches.LACKING, "jsonfmt", patches.compare),
    "layouts": ("", None, layouts.compare),
}


def compared(name, options):
    """How many differences a comparison found. It prints its line."""
    lacking, program, compare = COMPARISONS[name]
    if lacking:
        print(f"compare: {name} is passed over: there is no {lacking} here", flush=True)
        return 0
    if program:
        program = os.path.abspath(f"{options.programs}/{program}") if options.programs else built.program(program)
    line, differences = compare(program, options)
    print(f"compare: {name}: {line}", flush=True)
    return differences


def main(options):
    options.files = options.files or ["/usr", "/root"]
    options.texts = 2000 if options.texts is None else options.texts
    options.seed = 1 if options.seed is None else options.seed
    if not set(options.names) <= set(COMPARISONS):
        options.error(f"the comparisons are {', '.join(COMPARISONS)}")
    return 1 if sum(compared(it, options) for it in options.names or COMPARISONS) else 0
