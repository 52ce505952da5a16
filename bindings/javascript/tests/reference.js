// The algorithm of prettier's printer, written anew, to compare with: breaks are passed on to the groups around them, and a
// list of commands, each a document with its indent and its mode, is worked off. A group looks ahead, through itself and
// through what follows.

const BROKEN = "broken";
const FLAT = "flat";

export const breakParent = { type: "breakParent" };
export const line = { type: "line", flat: " " };
export const softline = { type: "line", flat: "" };
export const hardline = [{ type: "line", isHard: true }, breakParent];
export const group = (contents) => ({ type: "group", contents, isBroken: false });
export const indent = (contents) => ({ type: "indent", contents });
export const ifBreak = (broken, flat = "") => ({ type: "ifBreak", broken, flat });
export const join = (separator, docs) => docs.flatMap((it, at) => (at > 0 ? [separator, it] : [it]));

const widthOf = (text) => (/^[\x20-\x7e]*$/.test(text) ? text.length : [...text].length);

// Breaks each group with a `breakParent` in it. A group that was seen in another place is not gone through again.
function passBreaksOn(doc) {
    const [todo, groups, seen] = [[doc], [], new Set()];
    while (todo.length > 0) {
        const it = todo.pop();
        if (it === groups) {
            if (groups.pop().isBroken && groups.length > 0) groups[groups.length - 1].isBroken = true;
        } else if (Array.isArray(it)) for (let at = it.length - 1; at >= 0; at--) todo.push(it[at]);
        else if (it.type === "breakParent" && groups.length > 0) groups[groups.length - 1].isBroken = true;
        else if (it.type === "ifBreak") todo.push(it.flat, it.broken);
        else if (it.type === "group") {
            groups.push(it);
            todo.push(groups);
            if (!seen.has(it)) todo.push(it.contents);
            seen.add(it);
        } else if (it.type === "indent") todo.push(it.contents);
    }
}

// An indent by one part more: its parts are kept, as they may be columns or tabs.
function indented({ parts }, columns) {
    const all = [...parts, columns];
    const text = all.map((it) => " ".repeat(it)).join("");
    return { parts: all, text, columns: text.length };
}

// Whether a command fits into so many columns with what follows it, up to the first break.
function fits(command, following, room) {
    const commands = [command];
    for (let left = following.length; room >= 0; ) {
        if (commands.length === 0 && left === 0) return true;
        const { mode, doc } = commands.pop() ?? following[--left];
        if (typeof doc === "string") room -= widthOf(doc);
        else if (Array.isArray(doc)) for (let at = doc.length - 1; at >= 0; at--) commands.push({ mode, doc: doc[at] });
        else if (doc.type === "group") commands.push({ mode: doc.isBroken ? BROKEN : mode, doc: doc.contents });
        else if (doc.type === "indent") commands.push({ mode, doc: doc.contents });
        else if (doc.type === "ifBreak") commands.push({ mode, doc: mode === FLAT ? doc.flat : doc.broken });
        else if (doc.type === "line" && (mode === BROKEN || doc.isHard)) return true;
        else if (doc.type === "line") room -= doc.flat.length;
    }
    return false;
}

// Takes the blanks away that the last line ends in.
function trim(out) {
    let last = "";
    while (last === "" && out.length > 0) last = out.pop().trimEnd();
    out.push(last);
}

// The layout of a document.
export function print(whole, width, tabWidth = 2) {
    passBreaksOn(whole);
    const [commands, out] = [[{ indent: { parts: [], text: "", columns: 0 }, mode: BROKEN, doc: whole }], []];
    let column = 0;
    while (commands.length > 0) {
        const { indent, mode, doc } = commands.pop();
        if (typeof doc === "string") {
            out.push(doc);
            column += widthOf(doc);
        } else if (Array.isArray(doc)) {
            for (let at = doc.length - 1; at >= 0; at--) commands.push({ indent, mode, doc: doc[at] });
        } else if (doc.type === "indent") commands.push({ indent: indented(indent, tabWidth), mode, doc: doc.contents });
        else if (doc.type === "ifBreak") commands.push({ indent, mode, doc: mode === FLAT ? doc.flat : doc.broken });
        else if (doc.type === "group") {
            const flat = { indent, mode: FLAT, doc: doc.contents };
            const isFlat = !doc.isBroken && (mode === FLAT || fits(flat, commands, width - column));
            commands.push(isFlat ? flat : { indent, mode: BROKEN, doc: doc.contents });
        } else if (doc.type === "line" && mode === FLAT && !doc.isHard) {
            out.push(doc.flat);
            column += doc.flat.length;
        } else if (doc.type === "line") {
            trim(out);
            out.push(`\n${indent.text}`);
            column = indent.columns;
        }
    }
    return out.join("");
}
