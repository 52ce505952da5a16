"""The library for other languages, built, and the tests of each language."""

import functools
import glob
import os
import re
import shutil
import sys
import tempfile
import traceback
from concurrent.futures import ThreadPoolExecutor

from support import built, command
from support.command import ROOT, Failed, content, need, read
from support.library import c_library
from support.toolchain import need_rt
from support.web import module
from support.web.package import package_of

BINDINGS = f"{ROOT}/bindings"
OUT = f"{BINDINGS}/out"
# Each program that is run, and the Debian package that has it.
NEEDED = {**c_library.NEEDED, "cargo": "cargo", "g++": "g++", "make": "make", "node": "nodejs"}
# The most that one command may take.
SECONDS = 900
run = functools.partial(command.output, seconds=SECONDS)


def counted(pattern, text):
    return sum(int(it) for it in re.findall(pattern, text, re.M))


def tests_in(pattern, written):
    """How many tests ran, as what they wrote says: one at least."""
    if not counted(pattern, written):
        raise Failed("no test ran", written)
    return counted(pattern, written)


# The library


def module_in(library):
    return f"{library}/{module.NAME}"


# From this line on cases are written as replay alone reads them.
END_OF_CASES = b"# Cases of replay alone"


def stored_cases():
    """The cases that a binding is to read, as one input, and what each states after its last arrow."""
    cases = content(f"{ROOT}/crates/replay/stdin").split(END_OF_CASES)[0]
    stating = [line for line in cases.splitlines() if line and not line.startswith(b"#")]
    return cases, [line.split(b" => ")[-1].decode() for line in stating]


def replay(words, folder=ROOT, **environment):
    """Has a program answer the stored cases, and compares. How many were compared: those that are cases."""
    cases, stored = stored_cases()
    answers = run(words, folder, cases, **environment).splitlines()
    if len(answers) != len(stored):
        raise Failed(f"{len(answers)} answers to {len(stored)} cases")
    pairs = [pair for pair in zip(answers, stored) if not pair[1].startswith("error")]
    wrong = [f"{ours}, where {theirs} is stored\n" for ours, theirs in pairs if ours != theirs]
    if wrong:
        raise Failed(f"{len(wrong)} of {len(pairs)} cases are wrong", "".join(wrong[:20]))
    return len(pairs)


def fresh(name):
    """An empty folder in bindings/out: what was linked with another library is gone."""
    folder = f"{OUT}/{name}"
    shutil.rmtree(folder, ignore_errors=True)
    os.makedirs(folder)
    return folder


# The parts. Each answers how many cases, tests, programs, JSON texts and TOML texts it took.


def test_c(library):
    """Compiles and runs the programs of C, each as C and as C++."""
    source, out = f"{BINDINGS}/c", fresh("c")
    run(["make", "-C", source, "test", f"LIB={library}", f"OUT={out}"])
    cases = min(replay([f"{out}/replay"]), replay([f"{out}/replay_cpp"]))
    with tempfile.TemporaryDirectory() as prefix:  # It has links, which `rt ci` refuses in a repository.
        installed = check_installed(library, prefix)
    tests = re.findall(r"^static void test_", read(f"{source}/test.c"), re.M)
    return {"cases": cases, "tests": 2 * len(tests) + installed}


def check_installed(library, prefix):
    """Installs the library, and runs the example over it. How many were run: those of CMake only where that is there."""
    source, built_by_cmake = f"{BINDINGS}/c", f"{prefix}/cmake"
    run(["make", "-C", source, "install", f"LIB={library}", f"PREFIX={prefix}"])
    linked = ["-I", f"{prefix}/include", "-L", f"{prefix}/lib", "-lprettyless", f"-Wl,-rpath,{prefix}/lib"]
    run(["gcc", f"{source}/example.c", *linked, "-o", f"{prefix}/example"])
    programs = [f"{prefix}/example"]
    if shutil.which("cmake"):
        run(["cmake", "-S", f"{source}/installed", "-B", built_by_cmake, f"-DCMAKE_PREFIX_PATH={prefix}"])
        run(["cmake", "--build", built_by_cmake])
        programs += [f"{built_by_cmake}/with_shared", f"{built_by_cmake}/with_static"]
    for program in programs:
        laid = run([program, "5"], given=b"(a b c)")
        if laid != "(a\n  b\n  c)\n":
            raise Failed(f"{program} laid out something else", laid)
    return len(programs)


def python_tests(folder, environment, files="test*.py"):
    """How many tests of this folder ran, the examples of the documentation among them."""
    words = [sys.executable, "-W", "error", "-m", "unittest", "discover", "-s", "tests", "-p", files]
    return tests_in(r"^Ran (\d+) test", run(words, folder, **environment))


def python_environment(library, packages):
    return {"PRETTYLESS": library, "PYTHONPATH": packages, "PYTHONDONTWRITEBYTECODE": "1"}


def test_python(library):
    source = f"{BINDINGS}/python"
    environment = python_environment(f"{library}/libprettyless.so", source)
    run([sys.executable, "-m", "doctest", f"{ROOT}/docs/BINDINGS.md"], **environment)
    cases = replay([sys.executable, "tests/replay.py"], source, **environment)
    return {"cases": cases, "tests": python_tests(source, environment) + 1}


def test_wheel(library):
    """Makes the wheel, unpacks it, and runs the tests on what was in it, with the library that it has."""
    source = f"{BINDINGS}/python"
    with tempfile.TemporaryDirectory() as folder:
        environment = python_environment(f"{library}/libprettyless.so", source)
        run([sys.executable, "make_wheel.py", folder], source, **environment)
        [wheel] = glob.glob(f"{folder}/*.whl")
        shutil.unpack_archive(wheel, folder, "zip")
        shutil.copytree(f"{source}/tests", f"{folder}/tests")
        shutil.copy(f"{source}/README.md", folder)
        return {"tests": python_tests(folder, python_environment("", folder), "test_yezhgulo.py")}


def test_rust(library):
    source, target = f"{BINDINGS}/rust", f"{OUT}/rust"
    environment = {"PRETTYLESS_LIB": library, "CARGO_TARGET_DIR": target}
    written = run(["cargo", "test", "--offline", "--release"], source, **environment)
    for example in sorted(os.listdir(f"{source}/examples")):
        run(["cargo", "run", "--offline", "--release", "--example", example.split(".")[0]], source, **environment)
    cases = replay([f"{target}/release/examples/replay"])
    return {"cases": cases, "tests": tests_in(r"^test result: ok\. (\d+) passed", written)}


def test_javascript(library):
    """Makes the package, and runs its tests on what is in it, with the module that it has."""
    path = module_in(library)
    if not os.path.exists(path):
        module.build(path)
    with tempfile.TemporaryDirectory() as room:
        folder = package_of(path, f"{room}/yezhgulo")
        shutil.copytree(f"{BINDINGS}/javascript/tests", f"{folder}/tests")
        cases = replay(["node", "tests/replay.js"], folder, PRETTYLESS_WASM="")
        written = run(["node", "--test", "tests/package.test.js"], folder, PRETTYLESS_WASM="")
        return {"cases": cases, "tests": tests_in(r"^\S+ pass (\d+)", written)}


def test_fuzz(library):
    written = run(["make", "-C", f"{BINDINGS}/c/fuzz", "test", f"LIB={library}", f"OUT={fresh('fuzz')}"])
    patterns = {"programs": r"(\d+) (?:damaged )?programs", "json": r"(\d+) JSON texts", "toml": r"(\d+) TOML texts"}
    return {what: counted(pattern, written) for what, pattern in patterns.items()}


# The longest come first.
PARTS = {"JavaScript": test_javascript, "Python": test_python, "the wheel": test_wheel, "Rust": test_rust}
PARTS.update({"the fuzz": test_fuzz, "C": test_c})
LANGUAGES = ("C", "Python", "Rust", "JavaScript")


def result_of(name, library):
    """What a part counted, or how it went wrong."""
    try:
        return PARTS[name](library)
    except Exception as error:  # A fault of this script ends that part alone.
        return error if isinstance(error, Failed) else Failed(str(error), traceback.format_exc())


def last_line(results):
    """One line of counts: of each part, and of all tests together."""
    languages = [name for name in LANGUAGES if name in results]
    cases = min(results[name]["cases"] for name in languages)
    programs, json, toml, tests = [sum(it.get(what, 0) for it in results.values()) for what in ("programs", "json", "toml", "tests")]
    through = f"{cases:,} cases through each of {', '.join(languages[:-1])} and {languages[-1]}"
    texts = f"{json:,} JSON texts, {toml:,} TOML texts"
    left_out = "" if "JavaScript" in results else "; JavaScript was left out, for there is no module"
    return f"bindings: {through}, {programs:,} programs, {texts}, {tests:,} tests: none wrong{left_out}"


def main(options):
    need(NEEDED)
    library = os.path.abspath(options.library or OUT)
    if not options.library:
        need_rt()
        if os.path.exists(module_in(OUT)):  # The part that tests it makes it.
            os.remove(module_in(OUT))
        c_library.build(built.static_library(), OUT)
    parts = [name for name in PARTS if name != "JavaScript" or not options.library or os.path.exists(module_in(library))]
    with ThreadPoolExecutor(max(1, options.parts or min(4, os.cpu_count() or 1))) as pool:
        results = dict(zip(parts, pool.map(lambda name: result_of(name, library), parts)))
    failed = {name: it for name, it in results.items() if isinstance(it, Failed)}
    for name, why in failed.items():
        print(f"== {name}\n{why.printed}\n{why}")
    print(f"bindings: failed: {', '.join(failed)}" if failed else last_line(results))
    return 1 if failed else 0
