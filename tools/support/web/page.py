"""The web page, made of its parts, and its test."""

import base64
import os
import re
import sys

from support import built
from support.command import ROOT, Failed, content, need, put, read, write
from support.toolchain import need_rt
from support.version import FORMATTERS
from support.web import module
from support.web.package import SOURCE, package_of

WEB = f"{ROOT}/web"
OUT = f"{ROOT}/bindings/out/web"
# The modules of the package that the page has, each after those that it imports.
MODULES = ("kinds", "values", "documents", "bytes", "flat", "program", "errors", "heap", "calls")
IMPORT = re.compile(r'^import (\{[^}]*\}) from "\./(\w+)\.js";$', re.M)
EXPORT = re.compile(r"^export (?=(?:const|class|function) (\w+))", re.M)
# Each program that is run by a test, and the Debian package that has it.
NEEDED_BY_TEST = {"chromium": "chromium", "chromedriver": "chromium-driver", "firefox-esr": "firefox-esr", "node": "nodejs"}


# The page


def as_script(name):
    """A module of the package as a constant of this name, for a script: an object of what it exports."""
    text = read(f"{SOURCE}/{name}.js")
    names = EXPORT.findall(text)
    text = EXPORT.sub("", IMPORT.sub(r"const \1 = \2;", text))
    if re.search(r"^(?:import|export)\b", text, re.M):
        raise Failed(f"{name}.js has an import or an export that is not known here")
    return f"const {name} = (() => {{\n{text.rstrip()}\nreturn {{ {', '.join(names)} }};\n}})();"


def page_of(path):
    """Puts the module, the styles and the scripts into one file: each `@@NAME@@` of page.html is that file."""
    parts = {"module": base64.b64encode(content(path)).decode(), "package": "\n".join(as_script(it) for it in MODULES)}
    part = lambda found: parts.get(found[1]) or read(f"{WEB}/{found[1]}").rstrip("\n")  # noqa: E731
    return write(f"{OUT}/yezhgulo.html", re.sub(r"@@([\w.]+)@@", part, read(f"{WEB}/page.html")))


# The test


def formatters():
    """A folder of the proved programs that the page is compared with."""
    for name in FORMATTERS:
        put(built.program(name), f"{OUT}/formatters/{name}", 0o755)
    return f"{OUT}/formatters"


def test(page, folder, pictures):
    """Drives the page in each browser. It fails where it shows another thing than the programs print."""
    sys.path.insert(0, f"{WEB}/tests")
    import browsers
    import page as pages

    try:
        for line in pages.test_page(page, folder, pictures):
            print(f"web: {line}", flush=True)
    except (browsers.Failed, pages.Wrong) as wrong:
        raise Failed(f"failed: {wrong}") from wrong


# The command


def main(options):
    need(NEEDED_BY_TEST if options.test else {})
    path = options.module or f"{ROOT}/bindings/out/{module.NAME}"
    if not options.module:
        need_rt()
        module.build(path)
    page, package = page_of(path), package_of(path, f"{ROOT}/bindings/out/javascript")
    sizes = f"{os.path.getsize(path):,} bytes the module, {os.path.getsize(page):,} the page"
    print(f"web: {os.path.relpath(page)}, {os.path.relpath(package)}: {sizes}", flush=True)
    os.environ["PRETTYLESS_WASM"] = os.path.abspath(path)
    if options.test:
        test(page, os.path.abspath(options.formatters or formatters()), options.pictures or OUT)
