// Programs: documents as bytes, with one instruction for each node, after those of the documents below it.
//
// A program is written from its end to its beginning. So a node is written when it is come to, and the documents below it
// are left to be written before it.

import { Bytes } from "./bytes.js";
import { group } from "./documents.js";
import { FlatForms } from "./flat.js";
import { ASCII, BOTH, CLOSE, LEAF, NIL, OPEN, OVER, PARTIAL_UNION, TEXT, UNICODE, kindOf } from "./kinds.js";

// What is left is a list of documents, of which the last is written next, and of these:
const OPENING = 0; // the sequence that is open from its end begins
const ALONE = 1; // the document before this in the list is no part of a sequence
const FLAT = 2; // from here on documents are those of a state
const BROKEN = 3; // and from here on they are not

// An engine takes more arguments than this at once.
const MANY = 10000;

// Nothing calls itself, for a document of any depth.
class Writer {
    constructor(tabWidth) {
        this.tabWidth = tabWidth;
        this.out = new Bytes();
        this.left = [];
        // The bytes of the text that was written last and has no code yet, since one before it in the same sequence may be
        // added to it. The two are laid as one: an ASCII text has as many columns as bytes.
        this.open = 0;
        // Whether another document of the same sequence comes after the one that is written next.
        this.isFollowed = false;
        this.isFlat = false;
        this.forms = new FlatForms();
    }

    // The program is a sequence of itself.
    write(document) {
        const { left } = this;
        left.push(document);
        while (left.length > 0) {
            const it = left.pop();
            if (typeof it === "string") this.text(it);
            else if (typeof it === "number") this.task(it);
            else this.node(it);
        }
        this.endText();
        return this.out.written();
    }

    task(task) {
        this.endText();
        if (task === ALONE) this.alone(this.left.pop());
        else if (task !== OPENING) this.isFlat = task === FLAT;
        else {
            this.out.byte(OPEN);
            this.isFollowed = true;
        }
    }

    text(text) {
        if (this.open > 0 && this.out.ascii(text)) this.open += text.length;
        else this.newText(text);
        this.isFollowed = true;
    }

    newText(text) {
        this.endText();
        if (text.length === 0) this.out.byte(NIL);
        else if (this.out.ascii(text)) this.open = text.length;
        else this.head(UNICODE, this.out.text(text));
    }

    endText() {
        if (this.open > 0) this.head(ASCII, this.open);
        this.open = 0;
    }

    // The code and the length of a text, before its bytes.
    head(code, length) {
        this.out.length(length);
        this.out.byte(code);
    }

    // The documents of a concat are part of the sequence that is open.
    node(given) {
        const node = this.isFlat ? this.forms.of(given) : given;
        if (typeof node === "string") this.text(node);
        else if (node?.type === "concat") this.inOrder(node.contents);
        else {
            this.endText();
            this.instruction(node, kindOf(node));
        }
    }

    instruction(node, kind) {
        const { left } = this;
        if (kind.shape === LEAF) this.leaf(kind);
        else if (kind.shape === OVER) this.over(node, kind);
        else if (kind.shape === BOTH) {
            this.code(node, kind);
            left.push(node.contents[0], ALONE);
            this.alone(node.contents[1]);
        } else if (kind.shape === TEXT) this.textNode(node, kind);
        else if (node.type === "conditionalGroup") this.states(node.contents);
        else this.inOrder(this.isFlat ? node.contents : groupsOf(node.contents));
    }

    code(node, kind) {
        if (node.type === "indent") this.out.number(this.tabWidth);
        else if (node.columns !== undefined) this.out.number(node.columns);
        this.out.byte(kind.code);
    }

    leaf({ codes, followed }) {
        if (this.isFollowed && followed !== undefined) this.out.byte(followed);
        else for (let at = codes.length - 1; at >= 0; at--) this.out.byte(codes[at]);
        this.isFollowed = true;
    }

    textNode(node, kind) {
        this.out.length(this.out.text(node.contents));
        this.code(node, kind);
        this.isFollowed = true;
    }

    // A group in a state is there because it is broken.
    over(node, kind) {
        this.code(node, kind);
        if (this.isFlat && node.type === "group") {
            this.left.push(FLAT);
            this.isFlat = false;
        }
        this.alone(node.contents);
    }

    // A document that is no part of a sequence.
    alone(given) {
        const doc = this.isFlat ? this.forms.of(given) : given;
        this.isFollowed = false;
        if (typeof doc === "string") {
            this.text(doc);
            this.endText();
        } else if (doc?.type === "concat" || doc?.type === "fill") {
            this.out.byte(CLOSE);
            this.left.push(OPENING, doc);
        } else this.left.push(doc);
    }

    // Documents of the sequence that is open. An engine reads a copy of a frozen array faster than the array.
    inOrder(docs) {
        if (docs.length < MANY) this.left.push(...docs);
        else for (const it of [...docs]) this.left.push(it);
    }

    // Each state as the first of a partial union, laid flat; the last of these has the last state as its second too.
    states(states) {
        const { left } = this;
        for (let it = 0; it < states.length; it++) this.out.byte(PARTIAL_UNION);
        left.push(BROKEN);
        for (const it of states) left.push(it, ALONE);
        left.push(FLAT);
        this.alone(states[states.length - 1]);
    }
}

// A fill as groups: the first content, and each separator with the content after it, in groups of their own.
function groupsOf(parts) {
    const groups = parts.length > 0 ? [group(parts[0])] : [];
    for (let at = 1; at < parts.length; at += 2) {
        groups.push(group(at + 1 < parts.length ? [parts[at], group(parts[at + 1])] : parts[at]));
    }
    return groups;
}

// The program of a document that `documentOf` answered, with this number of columns for each `indent`.
export const programOf = (document, tabWidth) => new Writer(tabWidth).write(document);
