// What builders are given: documents, texts and numbers.

// The greatest number that the library takes.
const MOST = 2n ** 64n - 1n;

const kindOf = (it) => (it === null ? "null" : Array.isArray(it) ? "an array" : typeof it);

// A whole number in a range, as it was given: a number or a BigInt.
export function whole(value, name, least = 0n, most = MOST) {
    if (typeof value !== "number" && typeof value !== "bigint") throw new TypeError(`${name} is a number, not ${kindOf(value)}`);
    if (typeof value === "number" && !Number.isSafeInteger(value)) throw new RangeError(`${name} is a whole number, not ${value}`);
    if (value < least || value > most) throw new RangeError(`${name} is from ${least} to ${most}, not ${value}`);
    return value;
}

export function string(text) {
    if (typeof text !== "string") throw new TypeError(`a text is a string, not ${kindOf(text)}`);
    return text;
}

// Whether a string has no lone surrogate: those are no UTF-8.
export const isWellFormed =
    typeof String.prototype.isWellFormed === "function" ? (it) => it.isWellFormed() : (it) => !/\p{Surrogate}/u.test(it);

// Whether something is what a builder made. Types that there are not are refused when a layout is asked for.
const isNode = (it) => typeof it === "object" && it !== null && typeof it.type === "string";

// What a function was given, as a string or a node. An array becomes a node, so that no later change of it is seen.
export function documentOf(given) {
    if (typeof given === "string" || isNode(given)) return given;
    if (Array.isArray(given)) return concat(partsOf(given));
    throw new TypeError(`a document is a string, an array or what a function of yezhgulo made, not ${kindOf(given)}`);
}

// A node of documents in order. The array is taken over.
export const concat = (docs) => Object.freeze({ type: "concat", contents: Object.freeze(docs) });

// The documents of an array in order, with those of an array in it in its place.
export function partsOf(array) {
    const parts = new Array(array.length);
    for (let at = 0; at < array.length; at++) {
        if (Array.isArray(array[at])) return partsOfNested(array);
        parts[at] = documentOf(array[at]);
    }
    return parts;
}

// The same of an array that has arrays in it. Nothing calls itself, at any depth.
function partsOfNested(array) {
    const parts = [];
    const open = [{ array, at: 0 }];
    const inside = new Set([array]);
    while (open.length > 0) {
        const last = open[open.length - 1];
        if (last.at >= last.array.length) inside.delete(open.pop().array);
        else {
            const next = last.array[last.at++];
            if (!Array.isArray(next)) parts.push(documentOf(next));
            else if (inside.has(next)) throw new TypeError("an array of documents is inside itself");
            else {
                open.push({ array: next, at: 0 });
                inside.add(next);
            }
        }
    }
    return parts;
}

export const documentsOf = (docs) => Object.freeze(Array.from(docs, documentOf));
