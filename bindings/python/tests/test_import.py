"""Tests of how the package is found, and how it finds the library."""

import os
import shutil
import subprocess
import sys
import tempfile
import unittest

HERE = os.path.dirname(os.path.dirname(os.path.abspath(__file__)))
REPOSITORY = os.path.dirname(os.path.dirname(HERE))
sys.path.insert(0, HERE)

from yezhgulo import _library, _places  # noqa: E402

# Prints where the package is, and what a document shows.
PROGRAM = "import yezhgulo; print(yezhgulo.__file__); print(yezhgulo.group('a', yezhgulo.line, 'b').layout(2))"


class Import(unittest.TestCase):
    def setUp(self):
        folder = tempfile.TemporaryDirectory()
        self.addCleanup(folder.cleanup)
        self.folder = os.path.realpath(folder.name)
        self.library = _library._path()

    def copied(self):
        """A folder within the temporary one that has a copy of the package."""
        site, left_out = os.path.join(self.folder, "site"), shutil.ignore_patterns("*.so", "__pycache__")
        shutil.copytree(os.path.join(HERE, "yezhgulo"), os.path.join(site, "yezhgulo"), ignore=left_out)
        return site

    def run_program(self, library="", path="", program=PROGRAM):
        """The status of the program, run in the temporary folder without installed libraries, and what it writes."""
        environment = {**os.environ, "PRETTYLESS": library, "PYTHONPATH": path, "HOME": self.folder}
        written = {"stdout": subprocess.PIPE, "stderr": subprocess.PIPE, "universal_newlines": True}
        words = [sys.executable, "-S", "-c", program]
        done = subprocess.run(words, env=environment, cwd=self.folder, **written)
        return done.returncode, done.stdout.splitlines(), done.stderr

    def test_an_installed_library(self):
        path = self.copied()
        os.makedirs(os.path.join(self.folder, ".local", "lib"))
        shutil.copy(self.library, os.path.join(self.folder, ".local", "lib", _places.SONAME))
        self.assertEqual(self.run_program(path=path)[0], 0)

    def test_no_library(self):
        for library in ("none.so", os.path.abspath(__file__)):
            status, shown, complaint = self.run_program(library, HERE)
            self.assertEqual((status, shown), (1, []))
            [said] = [it for it in complaint.splitlines() if it.startswith("ImportError: ")]
            self.assertIn("tools/install library", said)
        path = self.copied()
        if not any(map(os.path.exists, _places.installed()[1:])):
            status, shown, complaint = self.run_program(path=path)
            self.assertEqual(status, 1)
            self.assertIn("ImportError: yezhgulo found no libprettyless.so: run `tools/install library`", complaint)

    def test_a_library_of_another_version(self):
        find = "import ctypes.util, os; os.environ['PRETTYLESS'] = '/lib/x86_64-linux-gnu/libc.so.6'; import yezhgulo"
        status, _, complaint = self.run_program(path=HERE, program=find)
        self.assertEqual(status, 1)
        self.assertIn("ImportError", complaint)
        self.assertIn("tools/install library", complaint)

    def test_the_library_has_one_name(self):
        with open(os.path.join(REPOSITORY, "tools", "support", "library", "c_library.py"), encoding="utf-8") as file:
            self.assertIn(f'SONAME = f"{{SHARED}}{_places.SONAME[len(_places.FILE):]}"', file.read())


if __name__ == "__main__":
    unittest.main()
