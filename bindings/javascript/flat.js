// The states of a `conditionalGroup`. They are laid flat, but for groups that are broken at every width.

import { BOTH, LEAF, LIST, OVER, kindOf } from "./kinds.js";

export class FlatForms {
    constructor() {
        // Whether flat lines would show a break of a document, of those that were asked for.
        this.breaking = new Map();
    }

    // What a document is in a state: itself, or what stands for it.
    of(given) {
        for (let doc = given; ; ) {
            if (typeof doc === "string") return doc;
            const { shape, flat } = kindOf(doc);
            if (shape === LEAF && flat !== undefined) return flat;
            if (shape === BOTH && flat.length === 1) doc = doc.contents[flat[0]];
            else if (doc.type === "group" && !this.breaks(doc.contents)) doc = doc.contents;
            else if (doc.type === "conditionalGroup") doc = doc.contents[0];
            else return doc;
        }
    }

    // Whether flat lines of a document would show a break.
    breaks(whole) {
        const known = this.breaking;
        const todo = [whole];
        while (todo.length > 0) {
            const doc = todo[todo.length - 1];
            const shown = known.has(doc) ? [] : shownFlat(doc);
            const before = todo.length;
            for (const it of shown) if (typeof it !== "string" && !known.has(it)) todo.push(it);
            if (todo.length > before) continue;
            todo.pop();
            if (!known.has(doc)) known.set(doc, isBreak(doc) || shown.some((it) => known.get(it)));
        }
        return known.get(whole);
    }
}

// The documents below one that its flat lines show. A line suffix stands on no flat line.
function shownFlat(doc) {
    if (typeof doc === "string" || doc.type === "lineSuffix") return [];
    const { shape, flat } = kindOf(doc);
    if (shape === OVER) return [doc.contents];
    if (shape === BOTH) return flat.map((it) => doc.contents[it]);
    if (doc.type === "conditionalGroup") return [doc.contents[0]];
    return shape === LIST ? doc.contents : [];
}

// Whether a document alone breaks the groups around it.
function isBreak(doc) {
    if (typeof doc === "string") return false;
    return kindOf(doc).breaks || (doc.type === "multilineText" && /[\n\r]/.test(doc.contents));
}
