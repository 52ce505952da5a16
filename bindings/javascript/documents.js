// Documents, which are values that never change: a string stands for its text, an array for its documents in order, and
// the functions here make nodes. A node is a frozen object that has its `type`, and what is in it as its `contents`.
//
// The names are those of prettier's builders where a builder has its meaning; docs/BINDINGS.md has a table of both.

import { concat, documentOf, documentsOf, partsOf, string, whole } from "./values.js";

// The greatest and the least indent.
const MOST_COLUMNS = 2n ** 63n - 1n;
const LEAST_COLUMNS = -(2n ** 63n);
const FEW = 4;

// Nodes

const leaf = (type) => Object.freeze({ type });
const over = (type, doc) => Object.freeze({ type, contents: documentOf(doc) });
const both = (type, first, second) => Object.freeze({ type, contents: documentsOf([first, second]) });
const choice = (type, columns, yes, no) =>
    Object.freeze({ type, contents: documentsOf([yes, no]), columns: whole(columns, "columns") });

export const nil = leaf("nil");
export const fail = leaf("fail");
export const weakSpace = leaf("weakSpace");
export const weakLine = leaf("weakLine");
export const breakParent = leaf("breakParent");

// Breaks after which the next line has the indent of the place where the break stands, as in prettier.
export const line = leaf("line");
export const softline = leaf("softline");
export const hardline = leaf("hardline");
export const literalline = leaf("literalline");

// Breaks after which the next line has the indent of the document that comes next, as in the library's other languages.
export const lineOrSpace = leaf("lineOrSpace");
export const lineOrNil = leaf("lineOrNil");
export const hardBreak = leaf("hardBreak");

// Texts

const ofText = (type, content) => Object.freeze({ type, contents: string(content) });

export const text = (content) => ofText("text", content);
export const asciiText = (content) => ofText("asciiText", content);
export const multilineText = (content) => ofText("multilineText", content);
export const textOfWidth = (content, width) =>
    Object.freeze({ type: "textOfWidth", contents: string(content), columns: whole(width, "width") });

// Groups and their lines

export function group(doc, { shouldBreak = false, expandedStates, id } = {}) {
    if (id !== undefined) throw new TypeError("a group has no id here: docs/BINDINGS.md says what stands in for it");
    if (expandedStates !== undefined) return conditionalGroup(expandedStates, { shouldBreak });
    return over("group", shouldBreak ? [breakParent, doc] : doc);
}

// The first state whose first line fits; else the last one, broken.
export function conditionalGroup(states, { shouldBreak = false } = {}) {
    const kept = documentsOf(states);
    if (kept.length === 0) throw new TypeError("a conditionalGroup has at least one state");
    const last = kept[kept.length - 1];
    if (shouldBreak) return documentOf([breakParent, last]);
    return kept.length === 1 ? group(last) : Object.freeze({ type: "conditionalGroup", contents: kept });
}

// Contents and separators in turn. A separator is flat where it fits with the content after it.
export const fill = (parts) => Object.freeze({ type: "fill", contents: documentsOf(parts) });

export const flatten = (doc) => over("flatten", doc);
export const flatAlt = (broken, flat) => both("flatAlt", broken, flat);
export const ifBreak = (broken, flat = nil) => flatAlt(broken, flat);

// A separator of few documents stands one by one between those that it separates, and a longer one as one document.
export function join(separator, docs) {
    const isShort = Array.isArray(separator) && separator.length <= FEW;
    const between = isShort ? partsOf(separator) : [documentOf(separator)];
    const parts = [];
    for (const doc of docs) {
        if (parts.length > 0) for (const it of between) parts.push(it);
        parts.push(documentOf(doc));
    }
    return concat(parts);
}

// Indents

export const nest = (columns, doc) =>
    Object.freeze({ type: "nest", contents: documentOf(doc), columns: whole(columns, "columns", LEAST_COLUMNS, MOST_COLUMNS) });

// By the option `tabWidth` of the layout.
export const indent = (doc) => over("indent", doc);
export const dedentToRoot = (doc) => over("dedentToRoot", doc);
export const alignHere = (doc) => over("alignHere", doc);

export function align(columns, doc) {
    if (columns === Number.NEGATIVE_INFINITY) return dedentToRoot(doc);
    if (typeof columns === "string" || typeof columns === "object") throw new TypeError("align takes a number of columns");
    return nest(columns, doc);
}

// The end of a line, and alternatives

export const lineSuffix = (doc) => over("lineSuffix", doc);
export const union = (first, second) => both("union", first, second);
export const partialUnion = (first, second) => both("partialUnion", first, second);
export const ifColumnAtMost = (column, yes, no) => choice("ifColumnAtMost", column, yes, no);
export const ifColumnAtLeast = (column, yes, no) => choice("ifColumnAtLeast", column, yes, no);
export const ifColumnIsNesting = (yes, no) => both("ifColumnIsNesting", yes, no);
export const ifNestingAtMost = (columns, yes, no) => choice("ifNestingAtMost", columns, yes, no);
export const ifNestingAtLeast = (columns, yes, no) => choice("ifNestingAtLeast", columns, yes, no);
