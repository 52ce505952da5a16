// Tests of the package: each builder, options, errors and depth. Layouts are worked by hand, or are those of docs/GUIDE.md.

import assert from "node:assert/strict";
import { once } from "node:events";
import { readFileSync } from "node:fs";
import { describe, test } from "node:test";
import { Worker } from "node:worker_threads";
import { moduleFile } from "../module_file.js";
import * as y from "../node.js";
import * as reference from "./reference.js";

const { align, fill, group, hardline, ifBreak, indent, join, layout, line, lineSuffix, softline } = y;
const MILLION = 1e6;

// The layouts of a document at some widths.
function lays(doc, layouts, options) {
    for (const [width, wanted] of Object.entries(layouts)) {
        assert.equal(layout(doc, { width: Number(width), ...options }), wanted, `at ${width}`);
    }
}

const call = (argument) => group(["f(", indent([softline, argument]), softline, ")"]);
const body = (text) => ["head", hardline, text];

describe("prettier's builders", () => {
    test("a string is its text, and an array its documents in order", () => {
        lays(["a", ["b", [], "c"], ""], { 80: "abc" });
        lays([], { 80: "" });
        lays("", { 80: "" });
    });

    test("group, indent, line and softline", () => {
        const doc = call(["one,", line, "two"]);
        lays(doc, { 11: "f(one, two)", 10: "f(\n  one,\n  two\n)" });
        lays(doc, { 10: "f(\n    one,\n    two\n)" }, { tabWidth: 4 });
        lays(call(group(["a,", line, "b"])), { 7: "f(a, b)", 6: "f(\n  a, b\n)", 5: "f(\n  a,\n  b\n)" });
    });

    test("a group counts what follows it", () => lays([group(["a", line, "b"]), ";"], { 4: "a b;", 3: "a\nb;" }));

    test("hardline, breakParent and shouldBreak break the groups around them", () => {
        for (const it of [hardline, [line, y.breakParent], group(line, { shouldBreak: true })]) {
            lays(group(["a", line, group(["b", it, "c"])]), { 80: "a\nb\nc" });
        }
    });

    test("join takes what can be walked", () => {
        lays(join(", ", new Set(["a", "b"])), { 80: "a, b" });
        lays(join([",", line], []), { 80: "" });
        lays(join([",", " ", "a", "b", "c"], ["1", ["2"], "3"]), { 80: "1, abc2, abc3" });
        lays(join([], [[], "1", ["2", ["3"]]]), { 80: "123" });
        lays(group(join(line, ["1", "2", "3"])), { 5: "1 2 3", 4: "1\n2\n3" });
    });

    test("ifBreak of one document and of two", () => {
        lays(group(["a", line, "b", ifBreak(","), ifBreak("", ";")]), { 4: "a b;", 3: "a\nb," });
    });

    test("align by columns, to the root, and not by a text", () => {
        lays(align(3, ["a", hardline, "b"]), { 80: "a\n   b" });
        lays(align(4, ["{", hardline, "a", align(-2, [hardline, "b:"])]), { 80: "{\n    a\n  b:" });
        lays(align(2, ["a", align(-Infinity, [hardline, "b"])]), { 80: "a\nb" });
        assert.throws(() => align("// ", "a"), TypeError);
        assert.throws(() => align({ type: "root" }, "a"), TypeError);
    });

    test("fill", () => {
        lays(fill(["aa", line, "bb", line, "cc"]), { 8: "aa bb cc", 7: "aa bb\ncc", 4: "aa\nbb\ncc" });
        lays(fill(["aa", line]), { 80: "aa " });
        lays(fill([]), { 80: "" });
        const pair = (first, last) => group(["[", indent([softline, first, line, last]), softline, "]"]);
        lays(fill([pair("1", "2"), line, pair("3", "4")]), { 11: "[1 2] [3 4]", 10: "[1 2]\n[3 4]" });
    });

    test("lineSuffix waits for the end of its line, and takes no room", () => {
        const doc = group(["a", lineSuffix(" // why"), ",", line, "b"]);
        lays(doc, { 4: "a, b // why", 3: "a, // why\nb" });
    });

    test("conditionalGroup takes the first state that fits", () => {
        const states = ["a, b, c", ["a, b,", hardline, "c"], ["a,", hardline, "b,", hardline, "c"]];
        const layouts = { 10: "f(a, b, c)", 7: "f(a, b,\nc)", 5: "f(a,\nb,\nc)" };
        lays(["f(", y.conditionalGroup(states), ")"], layouts);
        lays(["f(", group("", { expandedStates: states }), ")"], layouts);
        lays(y.conditionalGroup(states, { shouldBreak: true }), { 80: "a,\nb,\nc" });
        assert.throws(() => y.conditionalGroup([]), TypeError);
    });

    test("a state is flat, but for its groups that have to break, and the last one is broken where none fits", () => {
        const list = ["[", indent([softline, "1,", line, "2"]), softline, "]"];
        lays(y.conditionalGroup([list]), { 6: "[1, 2]", 5: "[\n  1,\n  2\n]" });
        lays(y.conditionalGroup([["(", list, ")"], list]), { 8: "([1, 2])", 7: "[1, 2]", 5: "[\n  1,\n  2\n]" });
        const opened = group(["{", indent([hardline, "a", line, "b"]), hardline, "}"]);
        lays(y.conditionalGroup([["f(", line, opened, ")"], "g"]), { 4: "f( {\n  a\n  b\n})", 3: "g" });
    });

    test("literalline begins in column 0", () => {
        lays(indent(["a", y.literalline, "b", hardline, "c"]), { 80: "a\nb\n  c" });
    });

    test("a line takes the indent where it stands", () => {
        for (const nothing of [[], [[]], "", y.nil, [[], ["", []]]]) {
            lays([indent(["{", hardline, nothing]), "}"], { 80: "{\n  }" });
        }
        lays([indent(["{", hardline]), "}"], { 80: "{\n  }" });
        lays([indent(["{", group([softline, "x"]), softline]), "}"], { 1: "{\n  x\n  }" });
    });
});

describe("random documents", () => {
    let seed = 1;
    const next = (below) => {
        seed = (Math.imul(seed, 1664525) + 1013904223) >>> 0;
        return Math.floor((seed / 2 ** 32) * below);
    };
    const texts = ["a", "bb", "ccc", "dddd", "(", ")", "é"];
    // A document of some nodes, as a function of the builders, which may be those of another printer. `after` is what comes
    // after each break.
    const term = (size, after) => {
        if (size <= 1 || next(5) === 0) {
            const kind = ["text", "text", "text", "line", "softline", "hardline", "breakParent"][next(7)];
            const text = texts[next(texts.length)];
            if (kind === "text") return () => text;
            return kind === "breakParent" ? (m) => m.breakParent : (m) => [m[kind], ...after];
        }
        const inner = Array.from({ length: 1 + next(4) }, () => term(size / 2, after));
        const [first, last] = [texts[next(texts.length)], texts[next(texts.length)]];
        return [
            (m) => inner.map((it) => it(m)),
            (m) => m.group(inner.map((it) => it(m))),
            (m) => m.indent(inner.map((it) => it(m))),
            (m) => m.group(m.indent(inner.map((it) => it(m)))),
            (m) => m.join([",", m.line, ...after], inner.map((it) => it(m))),
            (m) => [m.ifBreak(first, last), inner[0](m)],
        ][next(6)];
    };

    test("they are laid out as by prettier's algorithm, where a text comes after each break", () => {
        for (let it = 0; it < 3000; it++) {
            const [make, width] = [term(2 + next(30), ["x"]), 1 + next(24)];
            assert.equal(layout(make(y), { width }), reference.print(make(reference), width));
        }
    });

    test("a break that another document follows has the indent of its place", () => {
        const nothing = [y.nil];
        const slow = { ...y, line: [y.lineOrSpace, nothing], softline: [y.lineOrNil, nothing], hardline: [y.hardBreak, nothing] };
        for (let it = 0; it < 3000; it++) {
            const [make, width] = [term(2 + next(30), []), 1 + next(24)];
            assert.equal(layout(make(y), { width }), layout(make(slow), { width }));
        }
    });
});

describe("the library's own", () => {
    test("breaks after which the line has the indent of what comes next", () => {
        lays([indent(["{", y.hardBreak]), "}"], { 80: "{\n}" });
        lays(group([indent(["{", y.lineOrSpace]), "}"]), { 3: "{ }", 2: "{\n}" });
        lays(group([indent(["{", y.lineOrNil]), "}"]), { 2: "{}", 1: "{\n}" });
        const softLine = group(y.lineOrSpace);
        lays(["aa", softLine, "bb", softLine, "cc"], { 7: "aa bb\ncc", 4: "aa\nbb\ncc" });
    });

    test("nest, alignHere and dedentToRoot", () => {
        lays(group([y.nest(4, ["begin", line, "body"]), line, "end"]), { 13: "begin\n    body\nend" });
        lays(["sum = ", y.alignHere(group(["one", line, "+ two"]))], { 15: "sum = one + two", 14: "sum = one\n      + two" });
        lays(y.nest(2, ["a", y.dedentToRoot([hardline, "b"]), hardline, "c"]), { 80: "a\nb\n  c" });
    });

    test("flatten, flatAlt and fail", () => {
        lays(y.flatten(["a", line, "b"]), { 1: "a b" });
        lays(group(["a", y.flatAlt(hardline, "; "), "b"]), { 4: "a; b", 3: "a\nb" });
        lays(y.union(group(["a", line, "b", y.flatAlt(y.fail, "")]), "c"), { 3: "a b", 2: "c" });
    });

    test("union looks at all lines, and partialUnion at the first", () => {
        lays(y.union(body("long body"), body("body")), { 9: "head\nlong body", 8: "head\nbody" });
        lays(y.partialUnion(body("long body"), body("body")), { 4: "head\nlong body", 3: "head\nbody" });
    });

    test("choices by column and by nesting", () => {
        lays(["ab", y.ifColumnAtLeast(2, "!", "?"), y.ifColumnAtMost(2n, "!", "?")], { 80: "ab!?" });
        lays(["ab", y.ifColumnIsNesting("!", "?")], { 80: "ab?" });
        lays(y.nest(2, [y.ifNestingAtMost(1, "!", "?"), y.ifNestingAtLeast(2, "!", "?")]), { 80: "?!" });
    });

    test("weakSpace and weakLine", () => {
        lays(["a", y.weakSpace, "b;", y.weakSpace], { 80: "a b;" });
        lays(["b;", hardline, y.weakLine, "c;"], { 80: "b;\nc;" });
    });

    test("texts, and what they count as", () => {
        lays(group(["42", line, "你好"]), { 7: "42 你好", 6: "42\n你好" });
        lays(group([y.text("語"), line, "b"]), { 4: "語 b", 3: "語\nb" });
        lays(group([y.asciiText("語"), line, "b"]), { 5: "語 b", 4: "語\nb" });
        lays(group([y.textOfWidth("\u001b[31mred\u001b[m", 3), line, "!"]), { 5: "\u001b[31mred\u001b[m !" });
        lays(indent([hardline, y.multilineText("`x\ny`")]), { 80: "\n  `x\ny`" });
        lays("x".repeat(1000) + "é", { 80: "x".repeat(1000) + "é" });
        lays("\ufeffa", { 80: "\ufeffa" });
    });
});

describe("options", () => {
    const doc = indent(["a", hardline, hardline, "b"]);

    test("lines", () => {
        assert.equal(layout(doc), "a\n\n  b");
        assert.equal(layout(doc, { deferred: false }), "a\n  \n  b");
        assert.equal(layout(doc, { endOfLine: "crlf" }), "a\r\n\r\n  b");
    });

    test("widths", () => {
        const long = group(["a", line, "b".repeat(200)]);
        assert.equal(layout(long), "a\n" + "b".repeat(200));
        assert.equal(layout(long, { width: Infinity }), "a " + "b".repeat(200));
        assert.equal(layout(long, { width: 202n }), "a " + "b".repeat(200));
    });

    test("what is refused", () => {
        for (const it of [{ width: -1 }, { width: 1.5 }, { width: NaN }, { tabWidth: -1 }, { limit: 0 }, { endOfLine: "cr" }]) {
            assert.throws(() => layout(doc, it), RangeError);
        }
        assert.throws(() => layout(doc, { width: "80" }), TypeError);
        assert.throws(() => y.nest(2 ** 53, "a"), RangeError);
        assert.throws(() => y.nest(2n ** 63n, "a"), RangeError);
        assert.throws(() => y.textOfWidth("a", -1), RangeError);
    });
});

describe("errors", () => {
    test("a document that has no layout", () => {
        const failing = () => layout(["a", hardline, "b", y.fail]);
        assert.throws(failing, { name: "LayoutError", before: "a\nb" });
        assert.throws(failing, y.YezhguloError);
        assert.throws(() => layout(y.flatten(["a", hardline])), y.LayoutError);
    });

    test("a limit", () => {
        assert.equal(layout("abcd", { limit: 4 }), "abcd");
        assert.throws(() => layout("abcde", { limit: 4 }), { name: "LimitError", limit: 4, before: "abcd" });
        assert.throws(() => layout("abcéd", { limit: 4 }), { before: "abc" });
        assert.throws(() => layout(["a", y.nest(2n ** 60n, [hardline, "b"])], { limit: 1000 }), y.LimitError);
    });

    test("what is no document", () => {
        for (const it of [undefined, null, 3, {}, () => "a", ["a", [3]]]) {
            assert.throws(() => group(it), TypeError);
            assert.throws(() => layout(it), TypeError);
        }
        assert.throws(() => layout({ type: "shown" }), TypeError);
        assert.throws(() => layout({ type: "group" }), TypeError);
        assert.throws(() => group("a", { id: "list" }), TypeError);
        assert.throws(() => y.text(3), TypeError);
        const own = ["a"];
        own.push(["b", own]);
        assert.throws(() => group(own), TypeError);
    });

    test("a lone surrogate", () => {
        for (const it of ["\ud800", "a".repeat(100) + "\udc00"]) {
            assert.throws(() => layout(it), TypeError);
            assert.throws(() => y.formatJson(JSON.stringify("x").replace("x", it)), TypeError);
        }
    });

    test("after each error there are layouts", () => assert.equal(layout(call("x")), "f(x)"));
});

describe("documents", () => {
    test("they do not change with the arrays that they were made of", () => {
        const inner = ["b"];
        const list = ["a", inner];
        const doc = group(list);
        list.push("c");
        inner[0] = "x";
        lays(doc, { 80: "ab" });
    });

    test("they are frozen", () => {
        const doc = group(["a", line]);
        assert.throws(() => { doc.contents = "b"; }, TypeError);
        assert.throws(() => { doc.contents.contents[0] = "b"; }, TypeError);
        assert.throws(() => { doc.contents.contents.push("b"); }, TypeError);
        lays(doc, { 80: "a " });
    });

    test("a copy, such as one that is posted to a worker, is laid out as they are", () => {
        lays(structuredClone(call(["a,", line, "b"])), { 7: "f(a, b)", 6: "f(\n  a,\n  b\n)" });
    });

    test("a worker lays out what is posted to it", async () => {
        const worker = new Worker(IN_WORKER, { eval: true, workerData: new URL("../node.js", import.meta.url).href });
        try {
            worker.postMessage(call(["a,", line, "b"]));
            assert.deepEqual(await once(worker, "message"), ["f(\n  a,\n  b\n)"]);
        } finally {
            await worker.terminate();
        }
    });

    test("one in several places is laid in each", () => {
        const pair = group(["a", line, "b"]);
        lays([pair, hardline, pair], { 3: "a b\na b", 2: "a\nb\na\nb" });
    });

    // A million levels, each made of the document before.
    const deep = (step) => {
        let doc = "x";
        for (let it = 0; it < MILLION; it++) doc = step(doc);
        return doc;
    };
    const levels = {
        "arrays that are made at once": [(doc) => [doc], "x"],
        "groups": [(doc) => group(doc), "x"],
        "indents": [(doc) => y.nest(1, doc), "x"],
        "suffixes": [(doc) => lineSuffix(doc), "x"],
        "arrays": [(doc) => y.flatten([doc, "y"]), "x" + "y".repeat(MILLION)],
        "first alternatives": [(doc) => y.union(doc, "y"), "x"],
        "second alternatives": [(doc) => ifBreak(doc, "y"), "x"],
        "choices": [(doc) => y.ifColumnAtLeast(1, "y", doc), "x"],
        "states": [(doc) => y.conditionalGroup([group(doc), "y"]), "x"],
    };
    for (const [name, [step, wanted]] of Object.entries(levels)) {
        test(`a million levels: ${name}`, () => assert.ok(layout(deep(step)) === wanted));
    }
    test("a million documents in an array", () => {
        const wanted = "x" + ",x".repeat(MILLION - 1);
        assert.ok(layout(join(",", new Array(MILLION).fill("x"))) === wanted);
    });
});

describe("JSON and TOML", () => {
    test("layouts", () => {
        assert.equal(y.formatJson('{"a":[1,2],"b":null}', { width: 16 }), '{\n  "a": [1, 2],\n  "b": null\n}\n');
        const numbers = new TextEncoder().encode("[1, 2, 3, 4, 5, 6]");
        assert.equal(y.formatJson(numbers, { width: 12, indent: 4, fill: true }), "[\n    1, 2, 3,\n    4, 5, 6\n]\n");
        const spaced = '{"a":\n\n1,\n\n\n"b": [2,\n\n3]\n\n}';
        assert.equal(y.formatJson(spaced, { width: 13 }), '{\n  "a": 1,\n  "b": [2, 3]\n}\n');
        assert.equal(y.formatJson(spaced, { width: 13, keepBlankLines: true }), '{\n  "a": 1,\n\n  "b": [2, 3]\n}\n');
        assert.equal(y.formatToml("a=[1,2] # two"), "a = [1, 2] # two\n");
        assert.equal(y.formatToml("a=[1,22,333]", { width: 14, indent: 4 }), "a = [\n    1, 22,\n    333,\n]\n");
    });

    test("faults", () => {
        const fault = (format, text, error, ...place) => {
            const [line, column, expected] = place;
            assert.throws(() => format(text), { name: error, line, column, expected });
        };
        fault(y.formatJson, '{"a": [1,\n 2 3]}', "JsonError", 2, 4, "`,` or `]`");
        fault(y.formatJson, new Uint8Array([0x5b, 0xff, 0x5d]), "JsonError", 1, 2, "UTF-8");
        fault(y.formatToml, "a = [1,\n 2 3]", "TomlError", 2, 4, "`,` or `]`");
        assert.throws(() => y.formatJson(3), TypeError);
    });

    test("a layout that is longer than was guessed", () => {
        lays(y.nest(5000, [hardline, "x"]), { 10: `\n${" ".repeat(5000)}x` });
        assert.equal(y.formatToml("a=[[1]]", { width: 0, indent: 900 }).split("\n")[2], `${" ".repeat(1800)}1,`);
        const before = "x".repeat(2000);
        const failing = y.nest(5000, [hardline, "y", y.fail]);
        assert.throws(() => layout([before, failing], { width: 1 }), { before: `${before}\n${" ".repeat(5000)}y` });
    });

    test("a limit", () => {
        assert.throws(() => y.formatJson("[1]", { limit: 3 }), { name: "LimitError", before: "[1]" });
        assert.equal(y.formatJson("[1]", { limit: 4 }), "[1]\n");
    });

    test("3 million numbers", () => {
        const text = `[${"1,".repeat(3 * MILLION)}1]`;
        assert.equal(y.formatJson(text).length, 15 * MILLION + 8);
        assert.equal(y.formatJson("[1]"), "[1]\n");
    });
});

describe("the package", () => {
    const read = (name) => readFileSync(new URL(`../${name}`, import.meta.url), "utf8");

    test("printerOf takes a module", async () => {
        const printer = y.printerOf(await WebAssembly.compile(readFileSync(moduleFile())));
        assert.equal(printer.layout(call("x"), { width: 3 }), "f(\n  x\n)");
        assert.equal(printer.formatToml("a=1"), "a = 1\n");
    });

    test("its types have the names that it exports", () => {
        const declared = [...`${read("index.d.ts")}${read("printer.d.ts")}`.matchAll(/^export declare \w+ (\w+)/gm)];
        assert.deepEqual(declared.map((it) => it[1]).sort(), Object.keys(y).sort());
    });

    test("the examples of its page", async () => {
        const [, ...blocks] = read("README.md").split("```js\n");
        assert.ok(blocks.length > 1);
        for (const block of blocks) {
            const code = block.split("```")[0].replaceAll('from "yezhgulo"', `from "${new URL("../node.js", import.meta.url)}"`);
            await import(`data:text/javascript,${encodeURIComponent(`import assert from "node:assert";${shown(code)}`)}`);
        }
    });
});

// What a worker does: it lays out each document that it gets.
const IN_WORKER = `
    const { parentPort, workerData } = require("node:worker_threads");
    import(workerData).then(({ layout }) => {
        parentPort.on("message", (doc) => parentPort.postMessage(layout(doc, { width: 6 })));
    });
`;

// The code of an example, where each call of `console.log` is compared with the comments after it.
function shown(code) {
    return code.replace(/console\.log\((.*)\);\n((?:\/\/ .*\n)+)/g, (_, value, lines) => {
        const wanted = lines.split("\n").slice(0, -1).map((it) => it.slice(3)).join("\n");
        return `assert.equal(String(${value}).trimEnd(), ${JSON.stringify(wanted)});\n`;
    });
}
