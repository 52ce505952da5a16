// Bytes that are written from the last one to the first.

import { isWellFormed } from "./values.js";

const LEAST = 1024;
// Texts of at most so many characters are encoded here; a call of the encoder takes longer.
const SHORT = 64;
const MOST = 2 ** 32 - 1;

const encoder = new TextEncoder();

export class Bytes {
    constructor() {
        this.take(new Uint8Array(LEAST));
        this.start = LEAST;
    }

    take(bytes) {
        this.bytes = bytes;
        this.view = new DataView(bytes.buffer);
    }

    // What was written so far.
    written() {
        return this.bytes.subarray(this.start);
    }

    // Makes room for so many bytes before those.
    room(more) {
        if (more > this.start) this.grow(more);
    }

    grow(more) {
        const written = this.written();
        const larger = new Uint8Array(Math.max(2 * this.bytes.length, written.length + more));
        this.start = larger.length - written.length;
        larger.set(written, this.start);
        this.take(larger);
    }

    byte(code) {
        this.room(1);
        this.bytes[--this.start] = code;
    }

    // A number in 8 bytes, two's complement.
    number(value) {
        this.room(8);
        this.start -= 8;
        if (value >= 0 && value <= MOST) {
            this.view.setUint32(this.start, Number(value), true);
            this.view.setUint32(this.start + 4, 0, true);
        } else this.view.setBigUint64(this.start, BigInt.asUintN(64, BigInt(value)), true);
    }

    // A length in 4 bytes.
    length(value) {
        this.room(4);
        this.start -= 4;
        this.view.setUint32(this.start, value, true);
    }

    // Writes the bytes of a text if it is short and ASCII, and says whether it is.
    ascii(text) {
        if (text.length > SHORT) return false;
        this.room(SHORT);
        const { bytes } = this;
        let { start } = this;
        for (let at = text.length - 1; at >= 0; at--) {
            const unit = text.charCodeAt(at);
            if (unit > 127) return false;
            bytes[--start] = unit;
        }
        this.start = start;
        return true;
    }

    // Writes the bytes of a text, and answers how many they are.
    text(text) {
        if (!isWellFormed(text)) throw new TypeError("a text has a lone surrogate, which is no UTF-8");
        const encoded = encoder.encode(text);
        if (encoded.length > MOST) throw new RangeError(`a text has at most ${MOST} bytes`);
        this.room(encoded.length);
        this.start -= encoded.length;
        this.bytes.set(encoded, this.start);
        return encoded.length;
    }
}
