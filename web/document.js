// The tab of documents, in the worker: it runs the code, lays its document out, and finds the groups that are broken.

"use strict";

// A longer layout is not shown, and of a document with more nodes neither groups nor a tree are.
const MOST_BYTES = 1000000;
const MOST_NODES = 5000;

// A group begins and ends in texts of no width, whose characters stand in no text that is typed: what comes before its
// number says whether it is broken, flat, or ends.
const [OPENS, CLOSES] = ["\uFDD0", "\uFDD1"];
const MARK = new RegExp(`${OPENS}([bfe])(\\d+)${CLOSES}`, "g");

// The documents below a node, each in its place.
function below({ type, contents }) {
    const { shape } = kinds.KINDS[type];
    if (shape === kinds.LEAF || shape === kinds.TEXT) return [];
    return shape === kinds.OVER ? [contents] : contents;
}

// The code is the body of a function. A browser counts its lines after so many others, and names it so in a stack.
const LINES_BEFORE = 3;
const IN_STACK = /\bdocument:(\d+):(\d+)/;

// The document that the code answers.
function documentOf(code) {
    const names = Object.keys(documents);
    const body = `"use strict";\n${code}\n//# sourceURL=document`;
    const made = new Function(...names, body)(...names.map((it) => documents[it]));
    if (made === undefined) throw new TypeError("the code answers no document: end it with `return`");
    return values.documentOf(made);
}

// Where in the code an error was thrown, if a browser tells: in its stack, or where it reports what is no JavaScript.
function placeOf(failure, code) {
    const place = IN_STACK.exec(failure?.stack)?.slice(1) ?? (failure instanceof SyntaxError ? reported(failure) : undefined);
    if (place === undefined) return undefined;
    const lines = code.split("\n");
    const line = place[0] - LINES_BEFORE;
    if (line > lines.length) return { line: lines.length, column: [...lines[lines.length - 1]].length + 1 };
    return { line, column: [...lines[line - 1].slice(0, place[1] - 1)].length + 1 };
}

function reported(failure) {
    let place;
    const take = (event) => {
        event.preventDefault();
        place = [event.lineno, event.colno];
    };
    addEventListener("error", take);
    reportError(failure);
    removeEventListener("error", take);
    return place;
}

// The same document with marks in its groups, and its tree as lines: of each its text, and the number of its group.
class Tree {
    constructor(document) {
        this.lines = [];
        this.groups = 0;
        this.nodes = 0;
        this.marked = this.added(document, "", "");
    }

    added(document, before, inside) {
        this.nodes += 1;
        if (this.nodes > MOST_NODES) throw new RangeError("too many nodes");
        if (typeof document === "string") {
            this.lines.push({ text: before + shown(document) });
            return document;
        }
        const group = document.type === "group" ? this.groups++ : undefined;
        this.lines.push({ text: before + titleOf(document), group });
        const docs = below(document);
        const made = docs.map((it, at) => {
            const isLast = at === docs.length - 1;
            return this.added(it, `${inside}${isLast ? "└ " : "├ "}`, `${inside}${isLast ? "  " : "│ "}`);
        });
        return group === undefined ? withBelow(document, made) : documents.group(inMarks(made[0], group));
    }
}

const shown = (text) => (text.length > 60 ? `${JSON.stringify(text.slice(0, 57))}..` : JSON.stringify(text));

function titleOf({ type, contents, columns }) {
    const isText = kinds.KINDS[type].shape === kinds.TEXT;
    const words = [type === "concat" ? "array" : type, columns, isText ? shown(contents) : undefined];
    return words.filter((it) => it !== undefined).join(" ");
}

// The node with other documents below it.
function withBelow(node, docs) {
    const { shape } = kinds.KINDS[node.type];
    return docs.length > 0 ? { ...node, contents: shape === kinds.OVER ? docs[0] : docs } : node;
}

function inMarks(doc, group) {
    const mark = (what) => documents.textOfWidth(`${OPENS}${what}${group}${CLOSES}`, 0);
    return [documents.flatAlt(mark("b"), mark("f")), doc, mark("e")];
}

// The lines of a layout as pieces, each a text and the groups that are broken around it, from a layout with marks; and which
// groups are broken. Nothing where the marks changed the layout, but for blanks at the ends of lines.
function piecesOf(layout, withMarks) {
    const [lines, marked] = [layout, withMarks].map((it) => it.split("\n"));
    const isSame = marked.map((it) => it.replace(MARK, "").trimEnd()).join("\n") === lines.map((it) => it.trimEnd()).join("\n");
    if (!isSame) return undefined;
    const state = { open: [], broken: {} };
    return { lines: marked.map((it, at) => piecesOfLine(it, lines[at].length, state)), broken: state.broken };
}

function piecesOfLine(line, length, { open, broken }) {
    const pieces = [];
    let [at, left] = [0, length];
    const add = (text) => {
        const kept = text.slice(0, left);
        if (kept) pieces.push({ text: kept, depth: open.filter((it) => broken[it]).length });
        left -= kept.length;
    };
    for (const found of line.matchAll(MARK)) {
        add(line.slice(at, found.index));
        at = found.index + found[0].length;
        if (found[1] === "e") open.pop();
        else {
            open.push(found[2]);
            broken[found[2]] = found[1] === "b";
        }
    }
    add(line.slice(at));
    return pieces;
}

// The tree of a document and its groups, where it is small enough.
function treeOf(printer, document, layout, options) {
    try {
        const { lines, marked } = new Tree(document);
        return { tree: lines, ...piecesOf(layout, printer.layout(marked, options)) };
    } catch {
        return {};
    }
}

// What the code comes to: a layout, with its pieces and its tree, or what went wrong.
function documentLayout(printer, code, { width, indent }) {
    const options = { width, tabWidth: indent, limit: MOST_BYTES };
    try {
        const document = documentOf(code);
        const layout = printer.layout(document, options);
        return { layout, ...treeOf(printer, document, layout, { ...options, limit: 20 * MOST_BYTES }) };
    } catch (failure) {
        if (failure instanceof errors.YezhguloError) return { wrong: failure.message };
        return { wrong: String(failure), place: placeOf(failure, code) };
    }
}
