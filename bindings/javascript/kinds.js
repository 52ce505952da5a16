// What each type of node is in a program: docs/BINDINGS.md ("Programs") has the codes.

// What the contents of a node are: none, a text, a document, two documents, or a list of documents.
export const LEAF = 0;
export const TEXT = 1;
export const OVER = 2;
export const BOTH = 3;
export const LIST = 4;

export const NIL = 0;
export const UNICODE = 16;
export const ASCII = 17;
export const APPEND = 48;
export const PARTIAL_UNION = 51;
export const OPEN = 64;
export const CLOSE = 65;

// All kinds have the same fields, which an engine reads faster:
//
// `code` is that of the node, and `codes` are those of a leaf.
// `followed` is the code of a break where another document comes next that has the same indent.
// `breaks` says that a group is broken where flat lines would show it.
// `flat` is what stands for a leaf in a state of a `conditionalGroup`, which is laid flat. Of two documents it has the
// places of those that flat lines show.
const kind = (shape, { code, codes, followed, breaks = false, flat } = {}) => ({ shape, code, codes, followed, breaks, flat });

const leaf = (codes, more) => kind(LEAF, { codes, ...more });
const text = (code) => kind(TEXT, { code });
const over = (code) => kind(OVER, { code });
const both = (code, flat) => kind(BOTH, { code, flat });
const list = kind(LIST);
const EITHER = [0, 1];
// A break after which the line has the indent of the break: nil comes next.
const here = (code, more) => leaf([code, NIL, APPEND], { followed: code, ...more });

export const KINDS = {
    nil: leaf([NIL]),
    fail: leaf([1]),
    weakSpace: leaf([2]),
    hardBreak: leaf([3], { breaks: true }),
    weakLine: leaf([4], { breaks: true }),
    breakParent: leaf([5], { breaks: true, flat: "" }),
    lineOrSpace: leaf([6], { flat: " " }),
    lineOrNil: leaf([7], { flat: "" }),
    hardline: here(3, { breaks: true }),
    line: here(6, { flat: " " }),
    softline: here(7, { flat: "" }),
    literalline: leaf([3, NIL, APPEND, 35], { breaks: true }),
    text: text(UNICODE),
    asciiText: text(ASCII),
    textOfWidth: text(18),
    multilineText: text(19),
    group: over(32),
    flatten: over(33),
    alignHere: over(34),
    dedentToRoot: over(35),
    lineSuffix: over(36),
    nest: over(37),
    indent: over(37),
    flatAlt: both(49, [1]),
    union: both(50, [0]),
    partialUnion: both(PARTIAL_UNION, [0]),
    ifColumnAtMost: both(52, EITHER),
    ifColumnAtLeast: both(53, EITHER),
    ifColumnIsNesting: both(54, EITHER),
    ifNestingAtMost: both(55, EITHER),
    ifNestingAtLeast: both(56, EITHER),
    concat: list,
    fill: list,
    conditionalGroup: list,
};

// A map finds a type faster than an object does.
const BY_TYPE = new Map(Object.entries(KINDS));

export function kindOf(node) {
    const kind = BY_TYPE.get(node?.type);
    if (kind === undefined) throw new TypeError("a part of the document is none that a function of yezhgulo made");
    return kind;
}
