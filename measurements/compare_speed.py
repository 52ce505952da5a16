#!/usr/bin/env python3
"""Times `jsonfmt`, `jq .` and `python3 -m json.tool` on the same JSON file, or `tomlfmt` and python's `tomllib` on a TOML file,
with the peak of memory of each. `tomllib` only reads.

usage: compare_speed.py PROGRAM FILE [ROUNDS]     (3 rounds if not given; of each the least time is taken)
"""
import os
import shutil
import subprocess
import sys
import time


OTHERS = {
    ".json": (["jq", "."], ["python3", "-m", "json.tool"]),
    ".toml": (["python3", "-c", "import tomllib; tomllib.load(open(0, 'rb'))"],),
}


def run(words, file):
    """The seconds that a run takes, and its peak of memory in MiB."""
    with open(file, "rb") as source, open(os.devnull, "wb") as sink:
        begun = time.perf_counter()
        child = subprocess.Popen(words, stdin=source, stdout=sink)
        _, status, usage = os.wait4(child.pid, 0)
        took = time.perf_counter() - begun
    if status:
        raise SystemExit(f"{words[0]} ended with {status}")
    return took, usage.ru_maxrss / 1024


def main():
    program, file = sys.argv[1:3]
    rounds = int(sys.argv[3]) if len(sys.argv) > 3 else 3
    megabytes = os.path.getsize(file) / 1e6
    for words in ([program], *OTHERS[os.path.splitext(file)[1]]):
        if not shutil.which(words[0]):
            print(f"{words[0]} is not there")
            continue
        runs = [run(words, file) for _ in range(rounds)]
        took, peak = min(it[0] for it in runs), min(it[1] for it in runs)
        print(f"{' '.join(words)}: {took:.2f} s, {megabytes / took:.0f} MB a second, peak {peak:.0f} MiB, {peak / megabytes * 1.048576:.1f} times the file")


main()
