// The calls of the module: docs/BINDINGS.md ("The calls") says what they take and answer.

import { JsonError, LayoutError, LimitError, MemoryError, ProgramError, TomlError, YezhguloError } from "./errors.js";
import { Heap } from "./heap.js";
import { programOf } from "./program.js";
import { documentOf, isWellFormed, whole } from "./values.js";

const STATUS = { whole: 0, small: 1, memory: 2, fails: 3, limit: 4, notJson: 5, notToml: 6 };
const LINE_ENDS = { lf: 0, crlf: 1 };
// What a width without an end is, and the greatest indent.
const MOST = 2 ** 32 - 1;
// A name of what was expected has fewer bytes.
const NAME = 256;
// The memory of an instance never shrinks, so one with more than this is not used again.
const KEPT = 64 * 2 ** 20;
const WORD = 8;

const encoder = new TextEncoder();
const decoder = () => new TextDecoder("utf-8", { ignoreBOM: true });

function bytesOf(text) {
    if (text instanceof Uint8Array) return text;
    if (typeof text !== "string") throw new TypeError("a text is a string or a Uint8Array");
    if (!isWellFormed(text)) throw new TypeError("a text has a lone surrogate, which is no UTF-8");
    return encoder.encode(text);
}

const widthOf = (width) => BigInt(width === Infinity ? MOST : whole(width, "width"));
const indentOf = (indent) => Number(whole(indent, "indent", 0n, BigInt(MOST)));
const limitOf = (limit) => (limit === undefined ? 0 : Number(whole(limit, "limit", 1n, BigInt(Number.MAX_SAFE_INTEGER))));

function lineEndOf(endOfLine) {
    if (!Object.hasOwn(LINE_ENDS, endOfLine)) throw new RangeError(`endOfLine is "lf" or "crlf", not ${String(endOfLine)}`);
    return LINE_ENDS[endOfLine];
}

class Calls {
    // `module` is compiled already.
    constructor(module) {
        this.module = module;
        this.start();
    }

    start() {
        this.heap = new Heap();
        this.exports = new WebAssembly.Instance(this.module, { heap: this.heap.imports }).exports;
        this.heap.open(this.exports.memory, Number(this.exports.__heap_base.value));
    }

    // The layout of these bytes by the call of this name: again where there was too little room. What goes wrong in the
    // module leaves it half done, so it begins anew.
    laid(call, bytes, options, limit) {
        try {
            let capacity = 2 * bytes.length + NAME;
            for (;;) {
                if (limit > 0) capacity = Math.min(capacity, Math.max(limit, NAME));
                const answer = this.call(call, bytes, options, limit, capacity);
                if (answer.status === STATUS.small) capacity = answer.written;
                else if (isCut(answer, capacity, limit)) capacity *= 2;
                else return textOf(answer, limit);
            }
        } catch (failure) {
            if (!(failure instanceof YezhguloError)) this.start();
            throw failure;
        } finally {
            if (this.heap.bytes.length > KEPT) this.start();
        }
    }

    // One call, with room for so many bytes. Addresses and lengths have 64 bits.
    call(call, bytes, options, limit, capacity) {
        const { heap } = this;
        heap.clear();
        const given = heap.take(bytes.length);
        const out = heap.take(capacity);
        const words = heap.take(3 * WORD);
        if (!given || !out || !words) return { status: STATUS.memory, written: 0, bytes: new Uint8Array() };
        heap.bytes.set(bytes, given);
        const places = (call === "prettyless_layout" ? [0] : [0, 1, 2]).map((it) => BigInt(words + it * WORD));
        const area = [out, capacity].map(BigInt);
        const status = this.exports[call](BigInt(given), BigInt(bytes.length), ...options, BigInt(limit), ...area, ...places);
        const [written, line, column] = [0, 1, 2].map((it) => Number(heap.view.getBigUint64(words + it * WORD, true)));
        return { status, written, line, column, bytes: heap.bytes.subarray(out, out + Math.min(written, capacity)) };
    }
}

// Whether what was laid before the layout stopped has more bytes than there was room for.
function isCut({ status, written }, capacity, limit) {
    const stopped = status === STATUS.fails || status === STATUS.limit;
    return stopped && written >= capacity && (limit === 0 || capacity < limit);
}

// The text of an answer, where that is a layout. A limit may end inside a character, which is left out.
function textOf({ status, line, column, bytes }, limit) {
    const text = decoder().decode(bytes, { stream: status === STATUS.limit });
    if (status === STATUS.whole) return text;
    if (status === STATUS.memory) throw new MemoryError();
    if (status === STATUS.fails) throw new LayoutError(text);
    if (status === STATUS.limit) throw new LimitError(limit, text.replace(/\uFFFD+$/, ""));
    if (status === STATUS.notJson) throw new JsonError(line, column, text);
    if (status === STATUS.notToml) throw new TomlError(line, column, text);
    throw new ProgramError(status);
}

// The three calls over a module that is compiled already.
export function printerOf(module) {
    const calls = new Calls(module);
    return Object.freeze({
        layout(doc, { width = 80, tabWidth = 2, endOfLine = "lf", deferred = true, limit } = {}) {
            const options = [widthOf(width), lineEndOf(endOfLine), deferred ? 1 : 0];
            const program = programOf(documentOf(doc), whole(tabWidth, "tabWidth", 0n, BigInt(MOST)));
            return calls.laid("prettyless_layout", program, options, limitOf(limit));
        },

        formatJson(text, { width = 80, indent = 2, fill = false, keepBlankLines = false, limit } = {}) {
            const options = [widthOf(width), indentOf(indent), fill ? 1 : 0, keepBlankLines ? 1 : 0];
            return calls.laid("prettyless_layout_json", bytesOf(text), options, limitOf(limit));
        },

        formatToml(text, { width = 80, indent = 2, limit } = {}) {
            return calls.laid("prettyless_layout_toml", bytesOf(text), [widthOf(width), indentOf(indent)], limitOf(limit));
        },
    });
}
