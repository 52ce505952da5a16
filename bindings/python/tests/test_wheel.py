"""Tests of the wheel: what is in it, that the same files give the same bytes, and that it works alone."""

import base64
import csv
import hashlib
import io
import os
import subprocess
import sys
import tempfile
import unittest
import zipfile

HERE = os.path.dirname(os.path.dirname(os.path.abspath(__file__)))
sys.path.insert(0, HERE)

import make_wheel  # noqa: E402


class Wheel(unittest.TestCase):
    def setUp(self):
        self.folder = tempfile.TemporaryDirectory()
        self.addCleanup(self.folder.cleanup)
        self.path = make_wheel.make(self.folder.name)

    def test_record(self):
        with zipfile.ZipFile(self.path) as wheel:
            files = {name: wheel.read(name) for name in wheel.namelist()}
        record = next(name for name in files if name.endswith("/RECORD"))
        rows = {row[0]: row[1:] for row in csv.reader(io.StringIO(files[record].decode()))}
        self.assertEqual(set(rows), set(files))
        self.assertEqual(rows.pop(record), ["", ""])
        for name, (digest, length) in rows.items():
            hashed = base64.urlsafe_b64encode(hashlib.sha256(files[name]).digest()).decode().rstrip("=")
            self.assertEqual((digest, length), ("sha256=" + hashed, str(len(files[name]))))
        for name in ("__init__.py", "py.typed", "libprettyless.so"):
            self.assertIn("yezhgulo/" + name, files)

    def test_the_same_bytes(self):
        with tempfile.TemporaryDirectory() as other:
            with open(self.path, "rb") as first, open(make_wheel.make(other), "rb") as second:
                self.assertEqual(first.read(), second.read())

    def test_it_works_alone(self):
        target = os.path.join(self.folder.name, "alone")
        with zipfile.ZipFile(self.path) as wheel:
            wheel.extractall(target)
        program = "import yezhgulo; print(yezhgulo.__file__); print(yezhgulo.group('a', yezhgulo.line, 'b').layout(2))"
        environment = {name: value for name, value in os.environ.items() if name != "PRETTYLESS"}
        environment["PYTHONPATH"] = target
        command = [sys.executable, "-c", program]
        done = subprocess.run(command, env=environment, cwd=target, stdout=subprocess.PIPE, check=True)
        lines = done.stdout.decode().splitlines()
        self.assertEqual(lines, [os.path.join(target, "yezhgulo", "__init__.py"), "a", "b"])

    def run_script(self, words, library):
        """The status of `make_wheel.py`, run in the temporary folder, and what it writes."""
        script = os.path.join(HERE, "make_wheel.py")
        environment = {**os.environ, "PRETTYLESS": library}
        where = {"env": environment, "cwd": self.folder.name}
        written = {"stdout": subprocess.PIPE, "stderr": subprocess.PIPE, "universal_newlines": True}
        done = subprocess.run([sys.executable, script, *words], **where, **written)
        return done.returncode, done.stdout, done.stderr

    def test_help_makes_nothing(self):
        before = os.listdir(self.folder.name)
        status, shown, complaint = self.run_script(["--help"], "")
        self.assertEqual((status, complaint), (0, ""))
        for word in ("FOLDER", "PRETTYLESS", "dist"):
            self.assertIn(word, shown)
        self.assertEqual(os.listdir(self.folder.name), before)

    def test_a_wrong_argument_makes_nothing(self):
        before = os.listdir(self.folder.name)
        for words in (["--wheel"], ["one", "two"]):
            self.assertEqual(self.run_script(words, "")[:2], (2, ""))
        self.assertEqual(os.listdir(self.folder.name), before)

    def test_no_library(self):
        status, shown, complaint = self.run_script(["new"], "none.so")
        self.assertEqual((status, shown), (1, ""))
        self.assertTrue(complaint.startswith("make_wheel: there is no library at "), complaint)
        self.assertIn("tools/install library", complaint)
        self.assertEqual(complaint.count("\n"), 1)
        self.assertFalse(os.path.exists(os.path.join(self.folder.name, "new")))

    def test_the_oldest_machine_is_in_the_tag(self):
        code = bytearray(20)
        code[:6], code[18:] = b"\x7fELF\x02\x01", b"\x3e\x00"
        for needs, platform in {
            b"": "manylinux2014_x86_64",
            b"\0GLIBC_2.2.5\0GLIBC_2.14\0": "manylinux2014_x86_64",
            b"\0GLIBC_2.17\0GLIBC_2.2.5\0": "manylinux2014_x86_64",
            b"\0GLIBC_2.34\0GLIBC_2.4\0": "manylinux_2_34_x86_64",
        }.items():
            self.assertEqual(make_wheel.tag(bytes(code) + needs), "py3-none-" + platform)
        code[18] = 0xB7
        with self.assertRaises(SystemExit):
            make_wheel.tag(bytes(code))


class Hooks(unittest.TestCase):
    """What pip calls."""

    def setUp(self):
        self.folder = tempfile.TemporaryDirectory()
        self.addCleanup(self.folder.cleanup)

    def test_a_wheel(self):
        name = make_wheel.build_wheel(self.folder.name)
        self.assertEqual([name], os.listdir(self.folder.name))
        self.assertTrue(name.startswith("yezhgulo-") and name.endswith("_x86_64.whl"), name)

    def test_an_editable_wheel(self):
        name = make_wheel.build_editable(self.folder.name)
        self.assertTrue(name.endswith("-py3-none-any.whl"), name)
        with zipfile.ZipFile(os.path.join(self.folder.name, name)) as wheel:
            self.assertEqual(wheel.read("yezhgulo.pth").decode(), HERE + "\n")

    def test_a_library_says_that_it_is_unproved(self):
        library = os.path.join(self.folder.name, "libprettyless.so")
        self.assertFalse(make_wheel.is_unproved(library))
        os.mkdir(os.path.join(self.folder.name, "pkgconfig"))
        for proofs, is_unproved in (" whose layouts are proved", False), (", built without its proofs", True):
            with open(os.path.join(self.folder.name, "pkgconfig", "prettyless.pc"), "w") as file:
                file.write(f"Name: prettyless\nDescription: A pretty printer{proofs}\n")
            self.assertEqual(make_wheel.is_unproved(library), is_unproved)


if __name__ == "__main__":
    unittest.main()
