"""The page of each public item."""

import collections
import functools
import glob
import os
import re
import textwrap

from support.command import ROOT, Failed, read, write

CRATES = f"{ROOT}/crates"
PAGE = f"{ROOT}/docs/API.md"
HEAD = """# Every public item

`tools/api` writes this page: parameters, and the first sentence of the comment beside the code, without asides. The
contract there says what a call promises. [GUIDE](GUIDE.md#how-a-document-is-made) shows the constructs by example.
`alloc` is memory, a `Global`, and `place` an allocator of nodes. Names after "also" stand further up.
"""
# The sections of `prettyless`, and the crates and files whose items stand in each; an item stands in the first that has it.
SECTIONS = {
    "Module `combinators`, whose functions are in the `prelude`": "prettyless_combinators/src/lib",
    "Crate root: starting a document": "prettyless_build/src/pretty prettyless/src/macros prettyless_alloc",
    "Crate root: `DocBuilder`": "prettyless_build",
    "Crate root: rendering": "prettyless_doc/src/render prettyless_doc/src/print",
    "Crate root: options, errors and sinks": "prettyless_model/src/options prettyless_doc/src/error prettyless_sink",
    "Crate root: documents": "prettyless_doc prettyless_model",
    "Crate root: places and pointers": "prettyless_pointers prettyless_placed bumpalo",
    "Module `text`": "prettyless_text std",
    "Module `laws`": "prettyless_laws",
}
# The words that a section with calls by their parameters alone ends with.
BRIEF = ("`DocBuilder`", "options, errors and sinks", ": documents", "places and pointers", "`text`")
# The sections of crates that `prettyless` does not pass on, and the crates of these whose items are listed by name.
OTHERS = {
    "Shapes": "prettyless_shapes",
    "Calls for other languages": "prettyless_program prettyless_exports prettyless_c",
    "JSON": "json_formatter json_validity json_lexemes json_grammar",
    "TOML": "toml_formatter toml_documents toml_grammar toml_lexemes",
}
NAMED = "prettyless_exports prettyless_c json_validity json_lexemes json_grammar toml_documents toml_grammar toml_lexemes".split()

# A public item: its file, its name, what is shown of it, its sentence, and the items in it.
Item = collections.namedtuple("Item", "file name shown sentence within")

ITEM = re.compile(r'( {0,4})(pub )?(?:const |extern "C" )?(fn|struct|enum|trait|const|macro_rules!) (\w+)')
IMPL = re.compile(r"impl(?:<.*?>)? (\w+)(?:<[^{]*?>)? (?:where [^{]*)?\{")
ASIDE = r"[.:](?: |$)|, (?:as|also|for instance)\b"
USE = re.compile(r"^pub use ([\w:]+?)(?:::\{([^}]*)\}| as \w+)?;", re.M)


def sentence_of(comment):
    text = re.sub(r"\[?`([^`]*)`\]?", r"\1", " ".join(comment))
    return re.match(rf".*?(?={ASIDE}|$)", text)[0]


def parameters_of(text):
    """The names of at most six parameters of a function, whose text begins after its name."""
    depth, inner = 0, ""
    for at, sign in enumerate(text.replace("->", "  ")):
        depth += {"(": 1, "<": 1, "[": 1, ")": -1, ">": -1, "]": -1}.get(sign, 0)
        inner += sign if depth == 1 else ""
        if sign == ")" and not depth:
            break
    names = re.findall(r"(\w+):(?!:)", inner[inner.rindex("(") :])
    return f"({', '.join(names) if len(names) < 7 else '..'})"


def parts_of(kind, text):
    """At most eight public fields of a struct, or variants of an enum."""
    body = re.match(r"(?:<[^{(;]*>)?\s*\{\n(.*?)\n\}", text, re.S)
    form = r"^    pub (\w+):" if kind == "struct" else r"^    (\w+)(?:[,({ ]|$)"
    names = re.findall(form, body[1] if body else "", re.M)
    return f" {{ {', '.join(names)} }}" if 0 < len(names) < 9 else ""


def shown_of(kind, name, text):
    if kind == "fn":
        return name + parameters_of(text)
    if kind in ("struct", "enum"):
        return name + parts_of(kind, text)
    return name + ("!" if kind == "macro_rules!" else "")


def items_of(file):
    """The public items of a file, each after the name of the type or trait that it is in, or the empty text."""
    text, found, comment, owner, is_trait, at = read(file), [], [], "", False, 0
    for line in text.split("\n"):
        item = ITEM.match(line)
        if line.strip().startswith("///"):
            comment.append(line.strip()[3:].strip())
        elif item and (item[2] or item[3] == "macro_rules!" or (is_trait and item[1])):
            shown = shown_of(item[3], item[4], text[at + item.end() :])
            found.append((owner if item[1] else "", Item(file, item[4], shown, sentence_of(comment), [])))
        if re.match(r"(?:pub|impl|trait|fn|struct|enum) ?\b", line):
            impl = IMPL.match(text[at : at + 400].replace("\n", " "))
            is_trait = bool(item and item[3] == "trait")
            owner = item[4] if is_trait else impl[1] if impl else ""
        if not re.match(r" *(?:///|#\[)", line):
            comment = []
        at += len(line) + 1
    return found


def files_of(crate):
    return sorted(glob.glob(f"{CRATES}/{crate}/src/**/*.rt", recursive=True))


@functools.lru_cache(None)
def declared(crate):
    """The items of a crate by name, each with the items in it, which may be of other files."""
    pairs = [it for file in files_of(crate) for it in items_of(file)]
    found = {it.name: it for owner, it in pairs if not owner}
    for owner, it in pairs:
        if owner in found:
            found[owner].within.append(it)
    return found


def uses_of(file):
    """What a file passes on: the path and the name of each."""
    for path, names in USE.findall(read(file)):
        before, _, last = path.rpartition("::")
        yield from ((path, it) for it in re.split(r",\s*", names.strip(" \n,"))) if names else [(before, last)]


def resolved(crate, path, name):
    """The items of a name that a file of a crate passes on: one, or all of a module."""
    home = (path or name).split("::")[0]
    if home in ("std", "bumpalo"):
        return [Item(f"{CRATES}/{home}/", name, name, f"The type of {path}", [])]
    home = home if files_of(home) else crate
    root, file = (f"{CRATES}/{home}/src/{it}.rt" for it in ("lib", name))
    if home == name:
        return module(home, root)
    if file in files_of(home) and (path == home or name not in declared(home)):
        return module(home, file)
    if name in declared(home):
        return [declared(home)[name]]
    others = [it for file in files_of(home) for it in uses_of(file) if it[1] == name and not it[0].startswith("crate")]
    return resolved(home, *others[0]) if others else []


def module(crate, file):
    """The public items of a module: its own, what it passes on, and those of the public modules in it; each once."""
    found = [declared(crate)[it.name] for owner, it in items_of(file) if not owner]
    for path, name in uses_of(file):
        found += resolved(crate, path, name)
    if file.endswith("lib.rt"):
        for name in re.findall(r"^pub mod (\w+);", read(file), re.M):
            found += module(crate, f"{os.path.dirname(file)}/{name}.rt")
    return list({id(it): it for it in found}.values())


def standing(places, earlier=()):
    """Whether an item stands in one of these crates and files, and in none of the earlier ones."""

    def is_of(item, those):
        return any(item.file[len(CRATES) + 1 :].startswith((f"{it}/", f"{it}.rt")) for it in those)

    return lambda item: is_of(item, places) and not is_of(item, earlier)


def combinators():
    """The functions of `combinators`: a call with the name of one makes the same document."""
    return {name: it for name, it in declared("prettyless_combinators").items() if name.islower()}


def meaning_of(item, others):
    """The sentence of an item, or the name of another item that has the sentence already."""
    return f"as {others[item.sentence]}" if item.sentence in others else item.sentence


def names(label, items):
    return [f"{label}: {', '.join(it.name for it in items)}"] if items else []


def lines_of(item, is_here, given, is_brief):
    """The lines of an item and of the calls in it, as far as these stand here."""
    calls = [it for it in item.within if is_here(it)]
    again = [it for it in calls if it.name in combinators() or given.get(it.name) == it.sentence]
    fresh = [it for it in calls if it not in again]
    others = {sentence: name for name, sentence in given.items() if len(sentence.split()) > 6}
    lines = [f"{it.shown}: {meaning_of(it, others)}" for it in fresh]
    if is_brief and fresh:
        lines = [", ".join(it.shown for it in fresh)]
    given.update((it.name, it.sentence) for it in fresh)
    head = f"{item.shown}: {item.sentence}" if is_here(item) else item.name
    return [head, *(f"  {it}" for it in lines + names("also", again))] if is_here(item) or calls else []


def section(items, is_here, given, is_brief=False):
    """The lines of a section: items with their sentences, then the names of laws."""
    laws = [it for it in items if is_here(it) and (it.name.startswith("law_") or it.file.endswith("laws/src/rows.rt"))]
    lines = [line for it in items if it not in laws for line in lines_of(it, is_here, given, is_brief)]
    return lines + names("laws", laws)


def crate_lines(crate):
    """The lines of a crate that `prettyless` does not pass on."""
    items = module(crate, f"{CRATES}/{crate}/src/lib.rt")
    if crate in NAMED:
        return names(crate, items)
    return [f"{crate}:", *(f"  {it}" for it in section(items, standing([crate]), {}))]


def block(lines):
    """Lines as a block of the page, each in lines of at most 120 characters, with no break between parameters."""
    how = {"width": 120, "break_long_words": False, "break_on_hyphens": False}
    parts = []
    for line in lines:
        kept = re.sub(r"\([^)]*\)", lambda given: given[0].replace(" ", "\0"), line)
        parts += textwrap.wrap(kept, subsequent_indent=re.match(" *", line)[0] + "    ", **how)
    return ["```text", *(it.replace("\0", " ") for it in parts), "```", ""]


def page():
    items, lines, earlier = module("prettyless", f"{CRATES}/prettyless/src/lib.rt"), [], []
    given = {name: it.sentence for name, it in combinators().items()}
    for title, places in SECTIONS.items():
        lines += [f"## {title}", "", *block(section(items, standing(places.split(), earlier), given, title.endswith(BRIEF)))]
        earlier += places.split()
    lines += ["## Other crates", "", "These are not in `prettyless`: list them in `crates.txt`.", ""]
    for title, crates in OTHERS.items():
        lines += [f"### {title}", "", *block([it for crate in crates.split() for it in crate_lines(crate)])]
    return "\n".join([HEAD, *lines])


def main(options):
    wanted = page()
    if not options.check:
        write(PAGE, wanted)
    elif read(PAGE) != wanted:
        raise Failed("docs/API.md differs from the comments of the crates: run tools/api")
