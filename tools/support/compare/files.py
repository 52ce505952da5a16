"""The files that are taken for a comparison, and the runs of a program on texts."""

import os
import subprocess


def files(folders, ending):
    """The paths of the files below these folders whose names end so."""
    for folder in folders:
        for at, _, names in sorted(os.walk(folder)):
            yield from (f"{at}/{it}" for it in sorted(names) if it.endswith(ending))


def ran(program, text, *words, folder=None):
    return subprocess.run([program, *words], input=text, cwd=folder, stdout=subprocess.PIPE, stderr=subprocess.PIPE)


def said(ended):
    return ended.stderr.decode(errors="replace").strip()
