"""The examples of pages and of comments as tests of one crate, and what comes of each."""

import glob
import os
import re
import shutil
import tempfile

from support import command
from support.command import ROOT, SUPPORT, read, write
from support.examples import pages
from support.examples.pages import Example, Items, literal

PAGES = ("docs/GUIDE.md", "docs/LOSES_NOTHING.md")
CRATE = "examples"
DEPENDENCIES = (
    "bumpalo example_formatters json_formatter prettyless prettyless_build prettyless_doc prettyless_exports prettyless_model"
    " prettyless_program prettyless_shapes prettyless_sink toml_formatter"
)

# Files whose items no other crate can name, so that no example of them can run.
PRIVATE = ("prettyless_doc/src/fact.rt", "prettyless_doc/src/formatter_sink.rt")

# What an example may name: in every crate, and in some.
IMPORTS = """use crate::outcomes;
use prettyless::prelude::*;
use prettyless::text::{CowStr, MultilineTextData, SmallText, Text};
use prettyless::{Arena, BoxAllocator, BoxDoc, BuildDoc, Bump, ColumnTest, Doc, DocPtr, FmtWrite, IndentationPolicy, IntoRef};
use prettyless::{IoWrite, LineEnding, NestingTest, RcAllocator, RcDoc, RenderCost, RenderOptions, Visits, docs};
use prettyless_exports::area::Area;
use std::test::Fail;
"""
IMPORTS_OF = {
    "guide": """ghost use Rattle.std.specs.Prelude.{⊤};
use example_formatters::values::{Value, document};
use prettyless::text::BuildError;
use prettyless::{PrettyError, RenderError};
use prettyless_shapes::{ListStyle, broken, hanging, list, text, with_late_comment};
use std::fmt;""",
    "json_formatter": "use json_formatter::{Style, format, formatted, render};",
    "prettyless": "use prettyless::macros::four_in_order;",
    "prettyless_build": "use prettyless_build::nodes::{around, of_two};\nuse prettyless_model::kind::{Indenting, Pair, Single};",
    "prettyless_exports": "use prettyless_exports::lay::lay_into;\nuse prettyless_exports::programs::program_layout;",
    "prettyless_program": "use prettyless_program::decode;",
    "prettyless_shapes": "use prettyless_shapes::{ListStyle, block, broken, ended, grouped, hanging, indented, joined, lined};\n"
    "use prettyless_shapes::{list, nil, spaced, stacked, stacked_all, text, with_late_comment, with_comment};",
    "prettyless_sink": "use prettyless_sink::io_write::write_whole;",
    "toml_formatter": "use toml_formatter::{Style, formatted};",
}

# The place of nodes: in every file, and in some.
PLACE = "let boxes = BoxAllocator::new(alloc);\nlet place = &boxes;"
PLACE_OF = {
    "prettyless_pointers/src/arena.rt": "let bump = Bump::new(alloc);\nlet arena = Arena::new(alloc, &bump);\nlet place = &arena;",
    "prettyless_pointers/src/rc.rt": "let counted = RcAllocator::new(alloc);\nlet place = &counted;",
}

# The variables of each example of a comment that names them.
VARIABLES = {
    "a": 'let a = place.pretty("a")?.into_doc()?;',
    "b": 'let b = place.pretty("b")?.into_doc()?;',
    "doc": 'let lines = docs![place, "a", hard_line(), "b"]?.into_doc()?;\nlet doc = lines.doc();',
    "text": 'let mut text = String::from_str(alloc, "so far ")?;',
    "bytes": 'let mut bytes = b"so far ".to_vec(alloc)?;',
    "writer": 'let mut writer = b"so far ".to_vec(alloc)?;',
    "out": "let mut out = [0_u8; 16];",
    "written": "let mut written = 0_usize;",
}

# The variables that an outcome gives first, and what makes them.
OPERANDS = {
    r'of "(\w+)" and "(\w+)": ': 'let mut docs = Vec::new(alloc);\nfor it in ["{0}", "{1}"] {{\n'
    "docs.push(place.pretty(it)?.into_doc()?)?;\n}}",
    r'of a pointer to "(\w+)": ': 'let pointer = place.pretty("{0}")?.into_doc()?;',
}

# The parts of an outcome, and what each claims: of `document`, which the example becomes, of its value `it`, or of a variable.
LITERAL = r'"(?:[^"\\]|\\.)*"'
LAYOUT = rf"({LITERAL}|nothing)"
LAID_LINES = "outcomes::lines(alloc, options)?.as_bytes()"
FORMS = {
    # Documents, and pointers to them.
    rf"(?:a pointer to )?{LAYOUT}": "outcomes::is_laid(&rt, &document, &outcomes::WIDTHS, {0});",
    rf"{LAYOUT} at (\d+)(?: columns?)?": "outcomes::is_laid(&rt, &document, &[{1}], {0});",
    rf"{LAYOUT}, or {LAYOUT} where lines are flat": "outcomes::is_laid_flat(&rt, &document, {0}, {1})?;",
    rf"{LAYOUT} after a text": 'outcomes::is_between(&rt, "a", &document, "", {0})?;',
    rf"{LAYOUT} between two texts": 'outcomes::is_between(&rt, "a", &document, "b", {0})?;',
    r"(one|four) columns?": "outcomes::takes(&rt, &document, {0})?;",
    r"shown as `([^`]*)`": 'outcomes::is_shown(&rt, &document, r#"{0}"#)?;',
    rf"writes {LAYOUT}, then `RenderError::Document`": "outcomes::fails(&rt, &document, {0});",
    r"its render answers `RenderError::Document`": 'outcomes::fails(&rt, &document, "");',
    # Buffers.
    r"`text`(?:, a `String`,)? grew by the layout": f"outcomes::grew(&rt, text.as_bytes(), {LAID_LINES});",
    r"`bytes`(?:, a `Vec<u8>`,)? grew by the layout": f"outcomes::grew(&rt, &bytes, {LAID_LINES});",
    rf"appends {LAYOUT} to `bytes`, a `Vec<u8>`": "outcomes::grew(&rt, &bytes, b{0});",
    r"what the writer holds grew by three bytes": 'outcomes::grew(&rt, &writer, b"ab\\n");',
    rf"`out` begins with {LAYOUT}": "assert!(rt; out.starts_with(b{0}));",
    rf"`out` is {LAYOUT}": "assert_eq!(rt; out.as_str(), {0});",
    r"`([a-z.]+)` is (\d+)": "assert_eq!(rt; {0}, {1});",
    r"`([a-z]+)` is `(Err\([^`]*\))`": "assert!(rt; matches!({0}, {1}));",
    # Other values.
    r"(\d+)": "assert_eq!(rt; it, {0});",
    r"`Ok`": "assert!(rt; it.is_ok());",
    r"`Some`": "assert!(rt; it.is_some());",
    r"`None` of a text of (\d+) bytes": "assert!(rt; SmallText::new(&outcomes::LETTERS[..{0}]).is_none());",
    rf"its `(\w+)` is ({LITERAL}|\d+)": "assert_eq!(rt; it.{0}(), {1});",
    r"(\d+) columns": "assert_eq!(rt; it.width, {0});",
    r"LF": "assert_eq!(rt; it.line_ending, LineEnding::Lf);",
    r"CR LF": "assert_eq!(rt; it.line_ending, LineEnding::Crlf);",
    r"indents at once": "assert_eq!(rt; it.indentation_policy, IndentationPolicy::Eager);",
    r"deferred indents": "assert_eq!(rt; it.indentation_policy, IndentationPolicy::Deferred);",
    r"the layout": f"assert_eq!(rt; it.as_bytes(), {LAID_LINES});",
    r"a place of nodes(?:, (?:in `bump`|each in a box|each in an `Rc`))?": "outcomes::is_place(&rt, &it)?;",
}
WORDS = {"nothing": '""', "one": "1", "four": "4"}

# A comment that looks like an example: a fence of any kind, an indented block, or code with an outcome.
LOOKS = re.compile(r"//.*(?:```|~~~)|//[/!] {5}|//[/!].* // ")
# A variable that an example makes.
LETS = re.compile(r"^let (?:mut )?(\w+)", re.M)
# What `rt try --test` writes of a test, and of what does not compile.
FAILED = re.compile(r"^test (\w+::\w+) \.\.\. FAILED((?:\n .*)*)", re.M)
REFUSED = re.compile(r"^(src/\w+\.rt:\d+):\d+: (error.*)", re.M)
RESULT = re.compile(r"^test result: \w+\. (\d+) passed; (\d+) failed", re.M)


def examples_of(path, faults):
    """The examples in the comments of a file, but for an `impl`, which is to be written, and those of PRIVATE."""
    if path[len("crates/") :] in PRIVATE:
        return
    opened, code = 0, []
    for number, line in enumerate([*read(path).split("\n"), ""], 1):
        comment = re.match(r"\s*//[/!] ?(.*)", line)
        if comment and comment[1] == "```":
            if opened and not code[0].startswith("impl"):
                yield Example(path, opened + 1, code)
            opened, code = 0 if opened else number, []
        elif opened and comment:
            code.append(comment[1])
        elif opened or LOOKS.search(line):
            faults.append(f"{path}:{opened or number}: this looks like an example, and is none")
            opened = 0


def operands_of(outcome):
    """The code of the variables that an outcome gives, and what is left of it."""
    given = [(re.match(form, outcome), code) for form, code in OPERANDS.items()]
    return next((([code.format(*it.groups())], outcome[it.end() :]) for it, code in given if it), ([], outcome))


def claims_of(outcome):
    """The claims of an outcome as code, or None where a part of it is of no form."""
    claims = []
    while outcome:
        parts = [(re.match(rf"(?:{form})(?:[,:;] |$)", outcome), claim) for form, claim in FORMS.items()]
        part, claim = max(parts, key=lambda it: it[0].end() if it[0] else 0)
        if not part:
            return None
        claims.append(claim.format(*(WORDS.get(it, it) for it in part.groups())))
        outcome = outcome[part.end() :]
    return claims


def variables_of(path, code):
    place = ["let alloc = rt.alloc();", "let options = RenderOptions::default();", PLACE_OF.get(path[len("crates/") :], PLACE)]
    if path in PAGES:
        return place
    names = re.findall(r"\b\w+\b(?!\()", re.sub(LITERAL, "", code))
    return [*place, *(code for name, code in VARIABLES.items() if name in names)]


def with_outcome(example, faults):
    """The code of an example and the claims of its outcome. There are none where that is of no form."""
    *before, line = example.code or [""]
    if before and line.startswith("// "):
        line = f"{before.pop()} {line}"
    parted = re.fullmatch(rf'((?:{LITERAL}|[^"])*?)(?: // (.*))?', line)
    last, outcome = parted.groups(default="") if parted else (line, line)
    operands, outcome = operands_of(outcome)
    claims = claims_of(outcome) or None
    if not claims:
        faults.append(f"{example.place}: this outcome is of no form: {outcome}")
    return [*operands, *before, last if last.endswith(";") else f"let it = {last};"], claims


def at_each_width(example):
    """The code of an example for each width of its table, and each time the claim of what is in `out` then."""
    layouts = ", ".join(f"({it.head.split()[0]}, {literal(it.layout)})" for it in example.columns)
    claim = 'assert_eq!(rt; out.as_str(), layout, "at {width}");'
    return [f"for (width, layout) in [{layouts}] {{", *example.code, claim, "}"]


def claim_of(column):
    options = re.sub(r"^(\d+).*", r"RenderOptions::new(\1)", column.head)
    return f"outcomes::is_laid_by(&rt, &document, {options}, {literal(column.layout)});"


def test_of(example, faults):
    """The lines of an example's test. There is none where its outcome is of no form."""
    code, claims = example.code, [claim_of(it) for it in example.columns]
    if not example.columns:
        code, claims = with_outcome(example, faults)
    elif re.search(r"\bwidth\b", "\n".join(code)):
        code, claims = at_each_width(example), []
    if claims is None:
        return []
    code = "\n".join(code)
    if any("document" in it for it in claims):
        name = ["it", *LETS.findall(code)][-1]
        claims.insert(0, f"let document = place.pretty({name})?;")
    body = "\n".join([*variables_of(example.path, code), code, *claims, "Ok(())"])
    return ["#[test]", f"fn line_{example.line}(rt: HostRuntime) -> Result<(), Fail> {{", *body.split("\n"), "}"]


def module_of(path):
    if path in PAGES:
        return path[len("docs/") : -len(".md")].lower()
    crate, _, file = path[len("crates/") : -len(".rt")].partition("/src/")
    return f"{crate}__{re.sub(r'[^a-z0-9]', '_', file)}"


def write_crate(folder, examples, faults):
    """Writes the crate of tests. The answer is where each example stands, by the names of its test and of that test's lines."""
    modules, places = {}, {}
    for example in examples:
        module = module_of(example.path)
        lines = modules.setdefault(module, [IMPORTS_OF.get(module.split("__")[0], ""), IMPORTS])
        start = "\n".join(lines).count("\n") + 2
        code = example.code if isinstance(example, Items) else test_of(example, faults)
        places[f"{module}::line_{example.line}"] = example.place
        places.update({f"src/{module}.rt:{start + it}": example.place for it in range(len(code))})
        lines += code
    modules["outcomes"] = [read(f"{SUPPORT}/examples/outcomes.rt.in")]
    modules["lib"] = ["#![tactic(auto)]", *(f"#[cfg(test)]\nmod {it};" for it in modules)]
    for module, lines in modules.items():
        write(f"{folder}/src/{module}.rt", "\n".join([*lines, ""]))
    return places


def run(folder, places, faults):
    tried, status = command.run(["rt", "try", "--test"], folder)
    faults += [f"{places[test]}: this comes to something else{why}" for test, why in FAILED.findall(tried)]
    faults += [f"{places.get(line, line)}: {why}" for line, why in REFUSED.findall(tried)]
    result = RESULT.search(tried)
    if status and not faults:
        faults.append(tried)
    return int(result[1]) + int(result[2]) if result else 0


def main(_):
    os.chdir(ROOT)
    faults = []
    of_comments = [it for path in sorted(glob.glob("crates/*/src/**/*.rt", recursive=True)) for it in examples_of(path, faults)]
    of_guide = [it for path in PAGES for it in pages.examples_of(path, faults)]
    with tempfile.TemporaryDirectory() as folder:
        shutil.copytree("crates", f"{folder}/crates", ignore=shutil.ignore_patterns("out"))
        shutil.copy("HANDLES", folder)
        write(f"{folder}/crates.txt", f"{read('crates.txt')}\n{CRATE}: {DEPENDENCIES}\n")
        places = write_crate(f"{folder}/crates/{CRATE}", [*of_comments, *of_guide], faults)
        ran = run(f"{folder}/crates/{CRATE}", places, faults)
    for it in faults:
        print(it)
    guide = sum(not isinstance(it, Items) for it in of_guide)
    wanted = len(of_comments) + guide
    print(f"examples: {ran} of {wanted} ran, {guide} of them of the guide, and {len(faults)} are wrong")
    return int(bool(faults) or ran != wanted)
