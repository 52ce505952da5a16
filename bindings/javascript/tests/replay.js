// Reads cases on standard input, one a line as docs/CASES.md has them, and answers each with what its layout comes to.
//
//     node tests/replay.js < ../../crates/replay/stdin
//
// A case is answered with `ok HEX` or `fail HEX`, and a line that is no case with `error`. Each document is made by the
// functions of the package, node by node. Nothing calls itself on a document, so it may be of any depth.

import { readFileSync } from "node:fs";
import * as y from "../node.js";

const LEAVES = { nil: y.nil, fail: y.fail, ws: y.weakSpace, hl: y.hardBreak, wl: y.weakLine, exp: y.breakParent };
const OVER_ONE = { grp: (it) => y.group(it), flat: y.flatten, align: y.alignHere, root: y.dedentToRoot, sfx: y.lineSuffix };
const OVER_TWO = { app: (first, second) => [first, second], bof: y.flatAlt, uni: y.union, puni: y.partialUnion };
const CHOICES = {
    "oncol atmost": y.ifColumnAtMost,
    "oncol atleast": y.ifColumnAtLeast,
    "onnest atmost": y.ifNestingAtMost,
    "onnest atleast": y.ifNestingAtLeast,
};

class NoCase extends Error {}

function need(isRight) {
    if (!isRight) throw new NoCase();
}

const of = (table, name) => (Object.hasOwn(table, name) ? table[name] : undefined);

function number(word) {
    need(/^[0-9]+$/.test(word) && BigInt(word) < 2n ** 64n);
    return BigInt(word);
}

function offset(word) {
    need(/^-?[0-9]+$/.test(word));
    const columns = BigInt(word);
    need(columns >= -(2n ** 63n) && columns < 2n ** 63n);
    return columns;
}

const decoder = new TextDecoder("utf-8", { fatal: true, ignoreBOM: true });

// The text of a word in hexadecimal.
function words(word) {
    if (word === "-") return "";
    need(/^([0-9a-f]{2})+$/.test(word));
    try {
        return decoder.decode(Buffer.from(word, "hex"));
    } catch {
        throw new NoCase();
    }
}

function payload(word) {
    const text = words(word);
    need(/[\n\r]/.test(text));
    return text;
}

// The document of a token that holds none, or nothing.
function leaf(token, next) {
    if (token === "t") return y.asciiText(words(next()));
    if (token === "m") return y.multilineText(payload(next()));
    if (token === "w") {
        const width = number(next());
        return y.textOfWidth(words(next()), width);
    }
    return of(LEAVES, token);
}

// How a choice by column or nesting is made.
function choice(token, next) {
    const test = next();
    if (token === "oncol" && test === "nesting") return y.ifColumnIsNesting;
    const make = of(CHOICES, `${token} ${test}`);
    need(make !== undefined);
    const bound = number(next());
    return (yes, no) => make(bound, yes, no);
}

// How a token that holds documents is made of them, and how many they are.
function over(token, next) {
    if (of(OVER_ONE, token)) return { make: OVER_ONE[token], count: 1, docs: [] };
    if (of(OVER_TWO, token)) return { make: OVER_TWO[token], count: 2, docs: [] };
    if (token === "oncol" || token === "onnest") return { make: choice(token, next), count: 2, docs: [] };
    need(token === "nest");
    const columns = offset(next());
    return { make: (inner) => y.nest(columns, inner), count: 1, docs: [] };
}

// Hands a document to the node that waits for it, and so on. Nothing while one waits for more.
function placed(doc, waiting) {
    let whole = doc;
    while (waiting.length > 0) {
        const last = waiting[waiting.length - 1];
        last.docs.push(whole);
        if (last.docs.length < last.count) return undefined;
        waiting.pop();
        whole = last.make(...last.docs);
    }
    return whole;
}

// The document of a node, which is read word by word.
function documentOf(next) {
    const waiting = [];
    let whole;
    for (let token = next(true); token !== undefined && token !== "=>"; token = next(true)) {
        need(whole === undefined);
        const doc = leaf(token, next);
        if (doc === undefined) waiting.push(over(token, next));
        else whole = placed(doc, waiting);
    }
    need(whole !== undefined);
    return whole;
}

function read(line) {
    const parts = line.split(" ");
    let at = 0;
    const next = (mayEnd = false) => {
        need(mayEnd || at < parts.length);
        return parts[at++];
    };
    const [width, endOfLine, policy] = [number(next()), next(), next()];
    need(["lf", "crlf"].includes(endOfLine) && ["eager", "deferred"].includes(policy));
    return { doc: documentOf(next), options: { width, endOfLine, deferred: policy === "deferred" } };
}

const hexed = (layout) => Buffer.from(layout).toString("hex") || "-";

// The answer to a case.
function answer(line) {
    try {
        const { doc, options } = read(line);
        return `ok ${hexed(y.layout(doc, options))}`;
    } catch (failure) {
        if (failure instanceof NoCase) return "error";
        if (failure instanceof y.LayoutError) return `fail ${hexed(failure.before)}`;
        throw failure;
    }
}

const cases = readFileSync(0, "utf8").split("\n").filter((it) => it && !it.startsWith("#"));
process.stdout.write(cases.map((it) => `${answer(it)}\n`).join(""));
