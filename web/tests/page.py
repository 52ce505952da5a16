"""Drives the page in a browser, and compares what it shows with what the programs print for the same text."""

import itertools
import json
import os
import pathlib
import subprocess
import tempfile

from browsers import ARROW_DOWN, ARROW_LEFT, ARROW_RIGHT, CONTROL, SPACE, TAB, Chromium, Firefox, waited_for

LISTS = '{"name":"Ada","list":[1,22,333],"empty":{}}'
NUMBERS = json.dumps({"numbers": list(range(40)), "nested": [[1, 2], [3, [4.5, -6e7]]], "empty": [[], {}]})
STRANGE = '{"größe":"日本語 \\ud83d\\ude00 😀","escapes":"\\"\\\\\\n","deep":' + "[" * 60 + "]" * 60 + "}"
MEMBERS = '{"a":{"b":{"c":[{"d":1},{"e":"f"}]}}}'
TABLES = """title="a" # comment
[a.b]
list=[1,2,# two
3]
when=2026-11-28T20:00:00Z
[[c]]
inline={x=1,"y z"=[true,"ü"]}
"""
COMMENTS = "# a comment alone\n\n\n\n# another"
STRINGS = 'x = """\ntwo lines\n"""\ny = \'one\' # line'
SPACED = '{"a":\n\n1,\n\n\n"b": [2,\n\n3]\n\n}'
# The deepest that is laid out.
DEEP = "[" * 128 + "]" * 128
TEXTS = {
    "json": [LISTS, NUMBERS, STRANGE, MEMBERS, SPACED, DEEP, "null", '"a"', "[]", " [ 1 , 2 ]\n\n"],
    "toml": [TABLES, COMMENTS, STRINGS, f"a = {DEEP}", "a.b . c = [[1, 2], [3, 4], []]"],
}
FAULTS = {
    "json": ["[1, 2", '{"a":tru}', "[1 2]", '{"größe"\t:\n\t"日本" x}', '["a\\q"]', "\n\n  ]", "[" * 129],
    "toml": ["a = ", "[table", "a = 1 b = 2", "x = 'one\ny = 2", "\n\nü = 1", "a = [1, 2\n\n", "k = 1979-13-01"],
}
WIDTHS, INDENTS = (1, 24, 80, 400), (0, 2, 7)
# What is on what, and the least contrast that it has by WCAG 2.1: 4.5 of texts, 3 of what is drawn.
CONTRASTS = [("ink", "paper", 4.5), ("ink", "desk", 4.5), ("quiet", "paper", 4.5), ("quiet", "desk", 4.5)]
CONTRASTS += [("fault", "desk", 4.5), ("ink", "fault-line", 4.5), ("ink", "fault-mark", 4.5)]
CONTRASTS += [("ink", "broken", 4.5), ("ink", "broken-inner", 4.5), ("accent", "paper", 3), ("limit", "paper", 3)]

PACKAGE = pathlib.Path(__file__).resolve().parents[2] / "javascript" / "node.js"
# Lays the documents of codes out in node, each at its width and indent.
IN_NODE = """
import { readFileSync } from "node:fs";
const y = await import(process.argv[1]);
const names = Object.keys(y);
const made = (code) => new Function(...names, code)(...names.map((it) => y[it]));
const all = JSON.parse(readFileSync(0, "utf8"));
console.log(JSON.stringify(all.map(([code, width, tabWidth]) => y.layout(made(code), { width, tabWidth }))));
"""
# What the examples of documents come to at some widths: how many groups are broken, and how the layout begins.
CALL = "draw(picture, scale(width, 2), canvas)"
BROKEN = {
    "A call": {
        38: ("0 of 2", CALL),
        37: ("1 of 2", "draw(\n  picture,\n  scale(width, 2),\n"),
        17: ("2 of 2", "draw(\n  picture,\n  scale(\n"),
    },
    "Comments at the ends of lines": {
        80: ("0 of 1", "{ width = 80, fill = false, limit = 0 }  // columns  // no limit"),
        20: ("1 of 1", "{\n  width = 80,  // columns\n"),
    },
    "A union and its fallback": {30: ("", "each(keys, options, (key) => {\n  return"), 29: ("", "each(\n  keys,\n")},
}
# Code that comes to no layout, and how what is said begins.
WRONG = {
    "return group(": "Line 1: SyntaxError: ",
    "const it = line;\n  const one = (;\nreturn one": "Line 2: SyntaxError: ",
    "const it = line;\n  nowhere();": "Line 2: ReferenceError: ",
    "const it = line;": "TypeError: the code answers no document",
    "return group(3)": "Line 1: TypeError: a document is a string, an array",
    "return ['a', fail]": "no layout: ",
    "return nest(2000000, [hardline, 'a'])": "the layout is longer than 1000000 bytes",
    "for (;;);": "The code took more than 3 seconds.",
}


class Wrong(Exception):
    """The page showed another thing than was wanted."""


def same(what, shown, wanted):
    if shown != wanted:
        raise Wrong(f"{what}: {shown!r} is shown, and {wanted!r} is wanted")


class Page:
    """The page in a browser."""

    def __init__(self, browser, path, formatters):
        self.browser, self.formatters, self.counts = browser, formatters, {"layouts": 0, "faults": 0}
        self.path = pathlib.Path(path).resolve()
        browser.resize(1280, 800)
        self.open()

    def open(self):
        self.browser.open(self.path.as_uri())

    def script(self, code, *arguments):
        return self.browser.script(f"const at = (id) => document.getElementById(id); {code}", *arguments)

    def settle(self):
        """Waits until what is shown is of the text and the options as they are."""
        waited_for("the page", lambda: self.script("return at('paper').getAttribute('aria-busy') === 'false'"))

    def put(self, language, text, width=56, indent=2, fill=False, keep=False):
        """Puts a text and options in, as typing does."""
        self.script(
            """const [language, text, width, indent, fill, keep] = arguments;
            const changed = (it, how) => it.dispatchEvent(new Event(how, { bubbles: true }));
            at(language === "documents" ? "of-documents" : "of-texts").click();
            const radio = document.querySelector(`[value=${language}]`);
            if (radio && !radio.checked) { radio.checked = true; changed(radio, "change"); }
            at("fill").checked = fill;
            at("keepBlankLines").checked = keep;
            for (const [id, value] of Object.entries({ text, width, indent })) {
                at(id).value = value;
                changed(at(id), "input");
            }""",
            *(language, text, width, indent, fill, keep),
        )
        self.settle()

    def state(self):
        """What is shown."""
        return self.script(
            """return {
                language: at("of-documents").getAttribute("aria-selected") === "true"
                    ? "documents" : document.querySelector("[name=language]:checked").value,
                text: at("text").value, width: at("width").value, indent: at("indent").value,
                fill: at("fill").checked, keep: at("keepBlankLines").checked,
                layout: [...at("layout").children].map((it) => it.textContent.replace(/^\\n$/, "")).join("\\n"),
                status: at("status").textContent, invalid: at("text").getAttribute("aria-invalid"),
                copy: !at("copy").disabled,
                marks: !at("marks").hidden, mark: at("mark").textContent, before: at("before").textContent,
            }"""
        )

    def printed(self, state):
        """What the program for this language prints, and says."""
        words = [f"{self.formatters}/{state['language']}fmt", "--width", state["width"], "--indent", state["indent"]]
        if state["language"] == "json":
            words += ["--compact", "--fill", "numbers" if state["fill"] else "none"]
            words += ["--keep-blank-lines"] if state["keep"] else []
        ended = subprocess.run(words, input=state["text"].encode(), stdout=subprocess.PIPE, stderr=subprocess.PIPE)
        return ended.returncode, ended.stdout.decode(), ended.stderr.decode()

    def compare(self):
        """Compares the layout with the program's."""
        self.settle()
        state = self.state()
        status, layout, said = self.printed(state)
        same(f"the status of {state['language']}fmt, which says {said!r}", status, 0)
        same(f"the layout of {state['text'][:80]!r}", state["layout"].rstrip("\n"), layout.rstrip("\n"))
        said = (state["status"], state["invalid"], state["marks"], state["copy"])
        same("what is said", said, ("Laid out.", "false", False, True))
        self.counts["layouts"] += 1

    def compare_fault(self):
        """Compares the place of a fault, and what was expected, with the program's message, and looks at the mark."""
        self.settle()
        state = self.state()
        _, _, said = self.printed(state)
        _, line, column, expected = said.split(":", 3)
        expected = expected.strip().split(", found")[0]
        same("what is said", state["status"], f"Line {line}, column {column}: {expected}.")
        said = (state["invalid"], state["marks"], state["copy"])
        same("whether a fault is marked, and the layout is copied", said, ("true", True, False))
        before = state["text"].split("\n")[int(line) - 1][: int(column) - 1]
        same("what is before the mark", state["before"], before)
        self.script("at('go').click()")
        same("what is selected", (self.selected(), self.focused()), (state["mark"], "text"))
        self.counts["faults"] += 1

    def selected(self):
        return self.script("const it = at('text'); return it.value.slice(it.selectionStart, it.selectionEnd)")

    def focused(self):
        return self.script("return document.activeElement.id")


def laid_in_node(page):
    """What the package lays the code out as, which is in the page, in node."""
    state = page.state()
    asked = json.dumps([[state["text"], int(state["width"]), int(state["indent"])]])
    words = ["node", "--input-type=module", "--eval", IN_NODE, PACKAGE.as_uri()]
    ended = subprocess.run(words, input=asked.encode(), stdout=subprocess.PIPE, stderr=subprocess.PIPE)
    same(f"what node says, {ended.stderr.decode()!r}", ended.returncode, 0)
    return json.loads(ended.stdout.decode())[0]


def compare_document(page):
    """Compares the layout of a document with the package's in node."""
    page.settle()
    state = page.state()
    same(f"the layout of {state['text'][:80]!r}", state["layout"], laid_in_node(page))
    same("what is said", state["status"], "Laid out.")
    page.counts["layouts"] += 1


def test_tabs(page):
    """Goes to the other tab by keys, and picks each example there by keys."""
    page.put("json", LISTS)
    page.script("at('of-texts').focus()")
    page.browser.keys("#of-texts", ARROW_RIGHT)
    same("the tab", (page.focused(), page.state()["language"]), ("of-documents", "documents"))
    compare_document(page)
    names = page.script("return [...at('example').options].filter((it) => !it.disabled).map((it) => it.value)")
    same("how many examples there are", len(names), 5)
    for name in names[1:]:
        page.browser.keys("#example", ARROW_DOWN)
        same("the example", page.script("return at('example').value"), name)
        compare_document(page)
    page.browser.keys("#text", " ")
    same("the example of another code", page.script("return at('example').value"), "Your own")
    page.script("at('of-documents').focus()")
    page.browser.keys("#of-documents", ARROW_LEFT)
    page.settle()
    same("the text after a walk to documents and back", page.state()["text"], LISTS)
    page.compare()


def examples(page):
    """The codes of the examples, by their names: each is picked."""
    return page.script(
        """at("of-documents").click();
        const pick = (name) => {
            at("example").value = name;
            at("example").dispatchEvent(new Event("input"));
            return [name, at("text").value];
        };
        return Object.fromEntries([...at("example").options].filter((it) => !it.disabled).map((it) => pick(it.value)));"""
    )


def test_documents(page):
    """Each example at many widths, and which groups of some of them are broken."""
    for code in examples(page).values():
        for width in (1, 10, 20, 30, 40, 80):
            page.put("documents", code, width, 4)
            compare_document(page)
    for name, layouts in BROKEN.items():
        for width, (broken, layout) in layouts.items():
            page.put("documents", examples(page)[name], width, 2)
            compare_document(page)
            same(f"how {name} begins at {width}", page.state()["layout"][: len(layout)], layout)
            figures = page.script("return at('figures').textContent")
            same(f"how many groups of {name} are broken at {width}", figures.split(" group")[0] if " group" in figures else "", broken)
    page.put("documents", "return ['a', hardline, hardline, group(['b', weakSpace])]")
    compare_document(page)


def test_tree(page):
    """The tree, and the marks of broken groups, are shown and hidden by keys."""
    page.put("documents", examples(page)["A call"], 37, 2)
    marked = "return getComputedStyle(document.querySelector('#layout .broken')).backgroundColor"
    tint = page.script(marked)
    page.browser.keys("#groups", SPACE)
    same("the tint without marks", page.script(marked), "rgba(0, 0, 0, 0)")
    page.browser.keys("#groups", SPACE)
    same("the tint with marks", page.script(marked), tint)
    same("whether a tree is shown at first", page.script("return at('tree').hidden"), True)
    page.browser.keys("#drawn", SPACE)
    rows = page.script("return [...at('tree').firstElementChild.children].map((it) => it.textContent)")
    same("the tree's begin", rows[:3], ["group: broken", "└ array", '  ├ "draw"'])
    same("the inner group", [it.strip("│├└ ") for it in rows if "group" in it], ["group: broken", "group"])
    same("whether the tree is seen", page.script("return at('tree').getBoundingClientRect().height > 50"), True)
    page.browser.keys("#drawn", SPACE)


def test_focus_of_documents(page):
    """Walks through what takes keys in the tab of documents, where the tree is shown."""
    page.put("documents", "return line")
    page.browser.keys("#drawn", SPACE)
    page.script("at('of-documents').focus()")
    walked = []
    for _ in range(10):
        walked.append(page.focused())
        page.browser.keys(f"#{walked[-1]}", TAB)
    same("what takes keys", walked[:8], ["of-documents", "example", "slider", "width", "indent", "groups", "drawn", "text"])
    same("what comes after the text", (walked[8:], page.focused()), (["copy", "paper"], "tree"))
    page.browser.keys("#drawn", SPACE)


def test_wrong_codes(page):
    """What is said of code that comes to no layout; and after it others do."""
    for code, said in WRONG.items():
        page.put("documents", code)
        same(f"what is said of {code}", page.state()["status"][: len(said)], said)
        same("whether the layout is stale", page.script("return at('layout').className"), "stale")
        state = page.state()
        shown = (state["invalid"], state["marks"])
        same("whether the code is wrong, and its place is marked", shown, ("true", said.startswith("Line ")))
        if "nowhere" in code:
            same("what is marked", (state["before"], state["mark"]), ("  ", "nowhere"))
        page.put("documents", "return group(['a', line, 'b'])", 2)
        compare_document(page)


def test_documents_kept(page):
    """The code and its options are as they were after a reload."""
    page.put("documents", "return ['kept', hardline]", 33, 5)
    page.browser.keys("#drawn", SPACE)
    page.open()
    compare_document(page)
    kept = page.script("return [at('text').value, at('width').value, at('drawn').checked, at('tree').hidden]")
    same("what is kept", kept, ["return ['kept', hardline]", "33", True, False])
    page.browser.keys("#drawn", SPACE)
    page.put("json", LISTS)


def clear(page):
    page.script("at('text').value = ''; at('text').dispatchEvent(new Event('input'))")


def test_keyboard(page):
    """Types a text, moves the slider, and changes the indent and the filling, each by keys."""
    page.compare()
    clear(page)
    page.browser.keys("#text", LISTS)
    page.compare()
    page.browser.keys("#slider", ARROW_LEFT * 56)
    same("the width", page.state()["width"], "24")
    page.compare()
    page.script("at('indent').select()")
    page.browser.keys("#indent", "5")
    same("the indent", page.state()["indent"], "5")
    page.compare()
    test_numbers(page)
    clear(page)
    page.browser.keys("#text", "[" + ",".join(map(str, range(30))) + "]")
    page.browser.keys("#fill", SPACE)
    same("the filling", page.state()["fill"], True)
    page.compare()
    clear(page)
    page.browser.keys("#text", SPACED)
    page.browser.keys("#keepBlankLines", SPACE)
    same("whether blank lines are kept", page.state()["keep"], True)
    page.compare()
    page.browser.keys("[value=json]", ARROW_RIGHT)
    same("the language", page.state()["language"], "toml")
    page.compare()
    page.browser.keys("[value=toml]", ARROW_LEFT)
    page.compare()


def test_numbers(page):
    """Types numbers that may not be: the nearest is used, and is shown once the number is left."""
    typed = [("width", "31", "31"), ("width", "2000", "1000"), ("width", "0", "1"), ("width", "24", "24")]
    for id, keys, used in typed + [("indent", "99", "16"), ("indent", "-3", "0"), ("indent", "2.7", "2")]:
        page.script("at(arguments[0]).select()", id)
        page.browser.keys(f"#{id}", keys)
        same(f"the {id} while it is typed", page.script("return at(arguments[0]).value", id), keys)
        page.browser.keys(f"#{id}", TAB)
        same(f"the {id}", page.state()[id], used)
        slider = str(min(int(page.state()["width"]), 160))
        same("the slider", page.script("return at('slider').value"), slider)
        page.compare()


def test_focus(page):
    """Walks through what takes keys. In Firefox a part that scrolls takes keys of itself."""
    page.put("json", "[1,")
    page.script("document.querySelector('[name=language]:checked').focus()")
    walked = []
    for _ in range(8):
        walked.append(page.focused())
        selector = f"#{walked[-1]}" if walked[-1] else "[name=language]:checked"
        page.browser.keys(selector, TAB)
    same("what takes keys", walked, ["", "slider", "width", "indent", "fill", "keepBlankLines", "text", "go"])
    same("what comes last", page.focused(), "paper")


def test_example(page):
    """What is typed at first takes the place of the example."""
    waited_for("the focus", lambda: page.focused() == "text")
    same("what is selected", page.selected(), page.state()["text"])
    page.script("document.execCommand('insertText', false, '[1]')")
    same("the text", page.state()["text"], "[1]")
    page.compare()


def test_kept(page):
    """Opens the page again: options and texts are as they were, but for long texts and empty ones."""
    page.put("toml", TABLES, 33, 5)
    page.put("json", NUMBERS, 44, 3, True, True)
    before = page.state()
    page.open()
    page.compare()
    same("what is shown after a reload", page.state(), {**before, "before": ""})
    same("what is selected", page.selected(), "")
    page.put("toml", " ", 33, 5)
    page.open()
    page.compare()
    same("the language after a reload", page.state()["language"], "toml")
    page.put("json", NUMBERS * 200)
    page.open()
    page.compare()
    same("the example, which is selected", page.selected(), page.state()["text"])


def test_nothing_kept(kind, path, formatters):
    """The page where nothing may be kept."""
    refusal = "<script>Object.defineProperty(window, 'localStorage', { get() { throw Error(); } });</script>"
    html = pathlib.Path(path).read_text(encoding="utf-8").replace("<style>", f"{refusal}<style>", 1)
    with kind() as browser, tempfile.NamedTemporaryFile("w", suffix=".html", encoding="utf-8") as file:
        file.write(html)
        file.flush()
        page = Page(browser, file.name, formatters)
        page.compare()
        page.put("toml", TABLES)
        page.compare()
        page.open()
        page.compare()
        same("the language after a reload", page.state()["language"], "json")


def test_options(page):
    """Each text with each of the options."""
    for language, texts in TEXTS.items():
        checks = (False, True) if language == "json" else (False,)
        for text, width, indent, fill in itertools.product(texts, WIDTHS, INDENTS, checks):
            page.put(language, text, width, indent, fill)
            page.compare()
    for width in WIDTHS:
        page.put("json", SPACED, width, keep=True)
        page.compare()


def test_faults(page):
    for language, texts in FAULTS.items():
        for text in texts:
            page.put(language, text)
            page.compare_fault()


def test_blank(page):
    """A text of blanks alone, or of none, is no fault, and has no layout."""
    for language, text in itertools.product(("json", "toml"), ("", " \n\t\n")):
        page.put(language, "[")
        page.put(language, text)
        state = page.state()
        said = (state["status"], state["invalid"], state["marks"], state["copy"], state["layout"])
        same("what is said of no text", said, ("There is no text yet.", "false", False, False, ""))
        same("whether it is red", page.script("return Boolean(document.querySelector('.fault, .stale'))"), False)


def test_mark(page):
    """The mark is where the text area shows the token: a column is as wide as one in the layout."""
    page.put("json", '[1, 2,\n   "a", tru]')
    boxes = page.script(
        """const [mark, area] = ["mark", "text"].map((id) => at(id).getBoundingClientRect());
        const style = getComputedStyle(at("text"));
        const canvas = document.createElement("canvas").getContext("2d");
        canvas.font = style.font;
        const column = canvas.measureText("0".repeat(100)).width / 100;
        const [left, top] = [area.left + parseFloat(style.paddingLeft), area.top + parseFloat(style.paddingTop)];
        return [(mark.left - left) / column, mark.width / column, (mark.top - top) / parseFloat(style.lineHeight)];"""
    )
    same("the columns before the mark, its columns and the lines before it", [round(it, 1) for it in boxes], [8, 3, 1])


def test_select(page):
    """The keys that select all select the layout alone, where it has the focus."""
    page.put("json", LISTS)
    page.browser.keys("#paper", CONTROL + "a")
    selected = page.script("return getSelection().toString()")
    same("what is selected", selected.strip(), page.state()["layout"].strip())


def test_small(page):
    """In small windows what is said and the begin of the layout are seen, and nothing lies beside the window."""
    page.put("json", "[1 2]", 80)
    for width, height in ((360, 740), (640, 400)):
        page.browser.resize(width, height)
        seen = page.script(
            """const [text, go, layout] = ["text", "go", "layout"].map((id) => at(id).getBoundingClientRect());
            return [text.bottom <= go.top, go.bottom <= innerHeight, layout.top + 60 <= innerHeight,
                document.documentElement.scrollWidth <= innerWidth];"""
        )
        same(f"what is seen at {width} to {height}", seen, [True] * 4)
    page.browser.resize(1280, 800)


def test_contrasts(page):
    for text, ground, least in CONTRASTS:
        ratio = page.script(
            """const light = (name) => {
                const hex = getComputedStyle(document.documentElement).getPropertyValue(`--${name}`).trim();
                const parts = [1, 3, 5].map((it) => parseInt(hex.slice(it, it + 2), 16) / 255);
                const [r, g, b] = parts.map((it) => (it <= 0.04045 ? it / 12.92 : ((it + 0.055) / 1.055) ** 2.4));
                return 0.2126 * r + 0.7152 * g + 0.0722 * b + 0.05;
            };
            const [a, b] = [light(arguments[0]), light(arguments[1])];
            return Math.max(a, b) / Math.min(a, b);""",
            *(text, ground),
        )
        if ratio < least:
            raise Wrong(f"{text} on {ground} has a contrast of {ratio:.2f}, where {least} is wanted")


def large_text():
    """About 1 MB of JSON, with lines."""
    rows = ({"id": it, "name": f"row {it}", "values": [it, it * 2.5], "ok": it % 2 == 0} for it in range(15500))
    return "[" + ",\n".join(json.dumps(it) for it in rows) + "]"


def test_large(page):
    """A text of 1 MB. What the page says of its time, and the longest that a key waited for the next picture, in ms."""
    page.put("json", large_text(), 80)
    page.compare()
    took = page.script("return at('figures').textContent")
    page.script(
        """at("text").setSelectionRange(1, 1);
        window.longest = 0;
        let last = performance.now();
        (function look() {
            requestAnimationFrame(() => {
                window.longest = Math.max(window.longest, performance.now() - last);
                last = performance.now();
                look();
            });
        })();"""
    )
    for _ in range(10):
        page.browser.keys("#text", " ")
    page.settle()
    longest = round(page.script("return window.longest"))
    page.compare()
    return took, longest


def picture(page, name):
    page.browser.picture(f"{name}.png")


def picture_of_documents(page, name):
    page.put("documents", examples(page)["A call"], 30, 2)
    page.script("at('drawn').click()")
    picture(page, name)
    page.script("at('drawn').click()")


def test_dark(kind, path, formatters, pictures):
    with kind(dark=True) as browser:
        page = Page(browser, path, formatters)
        page.compare()
        test_contrasts(page)
        page.put("json", '{"name": "Ada Lovelace",\n "born": 1815,\n "langs": ["en", "fr" "de"]}')
        picture(page, f"{pictures}/{kind.name.lower()}_dark")
        page.compare_fault()
        picture_of_documents(page, f"{pictures}/{kind.name.lower()}_documents_dark")


def test_in(kind, path, formatters, pictures):
    """All tests in one browser. A line of counts and figures."""
    with kind() as browser:
        page = Page(browser, path, formatters)
        page.compare()
        picture(page, f"{pictures}/{kind.name.lower()}_light")
        for test in (test_example, test_keyboard, test_focus, test_kept, test_options, test_faults):
            test(page)
        for test in (test_blank, test_mark, test_select, test_small, test_contrasts):
            test(page)
        for test in (test_tabs, test_documents, test_tree, test_focus_of_documents, test_wrong_codes, test_documents_kept):
            test(page)
        picture_of_documents(page, f"{pictures}/{kind.name.lower()}_documents")
        took, wait = test_large(page)
    test_nothing_kept(kind, path, formatters)
    test_dark(kind, path, formatters, pictures)
    counts = f"{page.counts['layouts']} layouts and {page.counts['faults']} faults"
    return f"{kind.name}: {counts} as the programs print them; {took}, with at most {wait} ms between two pictures"


def test_page(path, formatters, pictures):
    """All tests in each browser; a line of each."""
    os.makedirs(pictures, exist_ok=True)
    for kind in (Chromium, Firefox):
        try:
            yield test_in(kind, path, formatters, pictures)
        except Wrong as wrong:
            raise Wrong(f"{kind.name}: {wrong}") from wrong
