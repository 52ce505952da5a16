// What may go wrong. An argument of a wrong type is a `TypeError`, and a number out of its range is a `RangeError`.

const PROGRAM_FAULTS = {
    16: "a byte begins no instruction",
    17: "the bytes end inside an instruction",
    18: "a text is not UTF-8",
    19: "an instruction takes more documents than were made",
    20: "a sequence is closed that was not opened",
    21: "a sequence is open at the end",
};

export class YezhguloError extends Error {
    get name() {
        return this.constructor.name;
    }
}

// The document has no layout: a `fail`, or under `flatten` a hard line or a payload, was to be laid. `before` is the layout
// up to it.
export class LayoutError extends YezhguloError {
    constructor(before) {
        const lines = before.split("\n");
        const last = JSON.stringify(lines[lines.length - 1].slice(-60));
        super(`no layout: a \`fail\`, or a hard line or payload under \`flatten\`, in line ${lines.length} after ${last}`);
        this.before = before;
    }
}

// The layout has more bytes than the limit. `before` is a beginning of it.
export class LimitError extends YezhguloError {
    constructor(limit, before) {
        super(`the layout is longer than ${limit} bytes`);
        this.limit = limit;
        this.before = before;
    }
}

export class MemoryError extends YezhguloError {
    constructor() {
        super("the layout was refused memory");
    }
}

// Where a text is wrong, both from 1, a column being a character; and what was expected there.
class TextError extends YezhguloError {
    constructor(line, column, expected) {
        super(`line ${line}, column ${column}: expected ${expected}`);
        this.line = line;
        this.column = column;
        this.expected = expected;
    }
}

// The text is not JSON, or has more than 100,000 levels.
export class JsonError extends TextError {}

// The text is not TOML, or has more than 128 brackets in one another.
export class TomlError extends TextError {}

// The module refused what this package handed it, which is a fault of the package.
export class ProgramError extends YezhguloError {
    constructor(status) {
        super(`status ${status}: ${PROGRAM_FAULTS[status] ?? "a status that this package does not know"}`);
        this.status = status;
    }
}
