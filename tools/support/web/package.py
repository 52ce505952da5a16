"""The package for JavaScript: a folder for `npm install`."""

import glob
import json
import os
import shutil

from support.command import ROOT, read

SOURCE = f"{ROOT}/bindings/javascript"


def package_of(module, folder):
    """Puts what the package has into a new folder: the files that its package.json names, and this module."""
    shutil.rmtree(folder, ignore_errors=True)
    os.makedirs(folder)
    patterns = ["package.json", "README.md", *json.loads(read(f"{SOURCE}/package.json"))["files"]]
    paths = [path for pattern in patterns for path in glob.glob(f"{SOURCE}/{pattern}")]
    for path in [*paths, f"{ROOT}/LICENSE", f"{ROOT}/NOTICE"]:
        if f"!{os.path.basename(path)}" not in patterns:
            shutil.copy(path, folder)
    shutil.copy(module, f"{folder}/prettyless.wasm")
    return folder
