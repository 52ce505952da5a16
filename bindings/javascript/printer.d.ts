/** A whole number from 0 on. */
export type Count = number | bigint;

/** What a builder made: a frozen object. */
export interface Node {
    readonly type: string;
}

/** A document: a string is its text, an array its documents in order. It is copied, so later changes are not seen. */
export type Doc = string | Node | readonly Doc[];

/** Nothing. */
export declare const nil: Node;
/** A document that has no layout. The first document of a `union` is rejected where it comes to this. */
export declare const fail: Node;
/** A space, but nothing at the beginning and at the end of a line. */
export declare const weakSpace: Node;
/** A line break; at the beginning of a line nothing, unless a suffix is pending there. */
export declare const weakLine: Node;
/** Nothing, but the groups around it are broken. */
export declare const breakParent: Node;

/** A line break, or a space where its group is flat. The next line has the indent of the place of the break. */
export declare const line: Node;
/** A line break, or nothing where its group is flat. (`softline` of the other languages is `group(lineOrSpace)`.) */
export declare const softline: Node;
/** A line break, which breaks the groups around it. */
export declare const hardline: Node;
/** A hard line, after which the line begins in column 0. */
export declare const literalline: Node;

/** As `line`, but the next line has the indent of the document that comes next. */
export declare const lineOrSpace: Node;
/** As `softline`, but the next line has the indent of the document that comes next. */
export declare const lineOrNil: Node;
/** As `hardline`, but the next line has the indent of the document that comes next. */
export declare const hardBreak: Node;

/** The text, as wide as it is shown. A string stands for it. */
export declare function text(content: string): Node;
/** The text, one column for each byte. */
export declare function asciiText(content: string): Node;
/** The text, which counts as so many columns, such as one with colours of a terminal. */
export declare function textOfWidth(content: string, width: Count): Node;
/** A text with line ends, written as it is, without indents. */
export declare function multilineText(content: string): Node;

export interface GroupOptions {
    /** The group is broken at every width. */
    shouldBreak?: boolean;
    /** As `conditionalGroup`. */
    expandedStates?: Iterable<Doc>;
}

/** Flat, in one line, if that fits; else with all of its lines broken, but for those of the groups in it. */
export declare function group(doc: Doc, options?: GroupOptions): Node;
/** The first state whose first line fits, laid flat but for groups that have to break; else the last one, broken. */
export declare function conditionalGroup(states: Iterable<Doc>, options?: { shouldBreak?: boolean }): Node;
/** Contents and separators in turn. A separator is flat where it fits with the content after it. */
export declare function fill(parts: Iterable<Doc>): Node;
/** The first where lines are broken, and the second, which may be left out, where they are flat. */
export declare function ifBreak(broken: Doc, flat?: Doc): Node;
/** The first where lines are broken, and the second where they are flat. */
export declare function flatAlt(broken: Doc, flat: Doc): Node;
/** Flat, at every width. A hard line or a text with line ends in it fails. */
export declare function flatten(doc: Doc): Node;
/** The documents with a separator between each two. */
export declare function join(separator: Doc, docs: Iterable<Doc>): Node;

/** The lines that begin inside it are moved in by `tabWidth` columns, an option of `layout`. */
export declare function indent(doc: Doc): Node;
/** The lines that begin inside it are moved by so many columns; with `-Infinity` it is `dedentToRoot`. */
export declare function align(columns: Count, doc: Doc): Node;
/** The lines that begin inside it are moved by so many columns. */
export declare function nest(columns: Count, doc: Doc): Node;
/** The lines that begin inside it begin in the column where it starts. */
export declare function alignHere(doc: Doc): Node;
/** The lines that begin inside it begin in column 0. */
export declare function dedentToRoot(doc: Doc): Node;

/** Laid at the end of its line. Its width does not count for what fits. */
export declare function lineSuffix(doc: Doc): Node;
/** The first if it has a layout and all of its lines fit, else the second. */
export declare function union(first: Doc, second: Doc): Node;
/** The first if its first line fits, else the second. */
export declare function partialUnion(first: Doc, second: Doc): Node;
/** `yes` if the next text would begin at this column or before it, else `no`. Columns count from 0. */
export declare function ifColumnAtMost(column: Count, yes: Doc, no: Doc): Node;
/** `yes` if the next text would begin at this column or after it, else `no`. */
export declare function ifColumnAtLeast(column: Count, yes: Doc, no: Doc): Node;
/** `yes` if the next text would begin at the indent, else `no`. */
export declare function ifColumnIsNesting(yes: Doc, no: Doc): Node;
/** `yes` if the indent is at most so many columns, else `no`. */
export declare function ifNestingAtMost(columns: Count, yes: Doc, no: Doc): Node;
/** `yes` if the indent is at least so many columns, else `no`. */
export declare function ifNestingAtLeast(columns: Count, yes: Doc, no: Doc): Node;

export interface LayoutOptions {
    /** The columns of a line: 80 if not given. */
    width?: Count;
    /** By how many columns `indent` moves lines: 2 if not given. */
    tabWidth?: Count;
    /** What ends a line: "lf" if not given. */
    endOfLine?: "lf" | "crlf";
    /** Whether an empty line has no indent: `true` if not given. */
    deferred?: boolean;
    /** The most bytes that the layout may have. */
    limit?: Count;
}

export interface TextOptions {
    /** The columns of a line: 80 if not given. */
    width?: Count;
    /** The columns by which a level is moved in: 2 if not given. */
    indent?: Count;
    /** The most bytes that the layout may have. */
    limit?: Count;
}

export interface JsonOptions extends TextOptions {
    /** Whether arrays of numbers fill their lines. */
    fill?: boolean;
    /** Whether blank lines between members stay where lines are broken, of several one. */
    keepBlankLines?: boolean;
}

export interface Printer {
    /** The layout of a document. */
    layout(doc: Doc, options?: LayoutOptions): string;
    /** The JSON text, laid out, with one LF at its end. The value and the spelling of each lexeme stay the same. */
    formatJson(text: string | Uint8Array, options?: JsonOptions): string;
    /** The TOML text, laid out. Its statements and comments stay the same. */
    formatToml(text: string | Uint8Array, options?: TextOptions): string;
}

/** The calls over a module, `prettyless.wasm`, that is compiled already. */
export declare function printerOf(module: WebAssembly.Module): Printer;

/** What all errors of this package have in common. */
export declare class YezhguloError extends Error {}

/** The document has no layout. */
export declare class LayoutError extends YezhguloError {
    constructor(before: string);
    /** The layout up to the node that fails. */
    readonly before: string;
}

/** The layout has more bytes than the limit. */
export declare class LimitError extends YezhguloError {
    constructor(limit: number, before: string);
    readonly limit: number;
    /** A beginning of the layout. */
    readonly before: string;
}

/** Memory was refused. */
export declare class MemoryError extends YezhguloError {}

declare class TextError extends YezhguloError {
    constructor(line: number, column: number, expected: string);
    /** Where the token begins that is wrong, or in a JSON string the part; both from 1; a column is a character. */
    readonly line: number;
    readonly column: number;
    /** What was expected there. */
    readonly expected: string;
}

/** The text is not JSON, or has more than 100,000 levels. */
export declare class JsonError extends TextError {}

/** The text is not TOML, or has more than 128 brackets in one another. */
export declare class TomlError extends TextError {}

/** The module refused what this package handed it, which is a fault of the package. */
export declare class ProgramError extends YezhguloError {
    constructor(status: number);
    readonly status: number;
}
