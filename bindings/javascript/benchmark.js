// The time of this package beside prettier's algorithm (tests/reference.js), on the same documents; its module; its first
// call.
//
//     node benchmark.js [numbers]
//
// A row has the least time of several rounds in milliseconds: of each, building, layout, and both. A ratio is the middle one
// of those of the rounds, in which all are timed one after another, so that other load of the machine slows all alike. Their
// layouts are compared, and have to be the same.

import { spawnSync } from "node:child_process";
import { readFileSync } from "node:fs";
import { gzipSync } from "node:zlib";
import { moduleFile } from "./module_file.js";
import * as ours from "./node.js";
import * as reference from "./tests/reference.js";

const ROUNDS = 40;
const STARTS = 15;

// Lists in lists, of so many numbers, always the same ones.
function lists(numbers) {
    let seed = 1;
    const next = (below) => {
        seed = (seed * 1103515245 + 12345) % 2147483648;
        return Math.floor((seed / 2147483648) * below);
    };
    const list = (count, depth) => {
        const items = [];
        for (let left = count; left > 0; ) {
            const part = depth > 0 && left > 6 && next(5) < 2 ? 2 + next(left / 2) : 1;
            items.push(part > 1 ? list(part, depth - 1) : next(100000));
            left -= part;
        }
        return items;
    };
    return list(numbers, 12);
}

const listed = (m, value) =>
    typeof value === "number"
        ? String(value)
        : m.group(["[", m.indent([m.softline, m.join([",", m.line], value.map((it) => listed(m, it)))]), m.softline, "]"]);

// Statements, each a call with three arguments, and a hard line after each.
const statements = (m, count) => {
    const call = (at) =>
        m.group([`call${at}(`, m.indent([m.softline, m.join([",", m.line], [`a${at}`, `bb${at}`, `ccc${at}`])]), m.softline, ");"]);
    return m.join(m.hardline, Array.from({ length: count }, (_, at) => call(at)));
};

// How many texts, arrays and nodes a document of the reference has.
function nodes(doc) {
    const todo = [doc];
    let count = 0;
    while (todo.length > 0) {
        const it = todo.pop();
        count++;
        if (Array.isArray(it)) for (const inner of it) todo.push(inner);
        else if (it.contents !== undefined) todo.push(it.contents);
    }
    return count;
}

// The time of a run in milliseconds.
function timed(run) {
    const begun = performance.now();
    run();
    return performance.now() - begun;
}

const repeated = (count, run) => Array.from({ length: count }, run);
const least = (times) => Math.min(...times);
const middle = (numbers) => [...numbers].sort((a, b) => a - b)[numbers.length >> 1];
const shown = (time) => time.toFixed(1).padStart(8);

function compare(name, make) {
    const [doc, other] = [make(ours), make(reference)];
    for (const width of [40, 80, 120]) {
        const [layout, wanted] = [ours.layout(doc, { width }), reference.print(make(reference), width)];
        if (layout !== wanted) throw new Error(`${name} at ${width} is laid out otherwise`);
        const runs = [() => make(ours), () => ours.layout(doc, { width }), () => make(reference), () => reference.print(other, width)];
        const rounds = repeated(ROUNDS, () => runs.map(timed));
        const [build, lay, otherBuild, otherLay] = runs.map((_, at) => least(rounds.map((it) => it[at])));
        const ratios = [middle(rounds.map((it) => it[1] / it[3])), middle(rounds.map((it) => (it[0] + it[1]) / (it[2] + it[3])))];
        const times = [build, lay, build + lay, otherBuild, otherLay, otherBuild + otherLay].map(shown).join("");
        const counts = [String(nodes(other)).padStart(8), String(width).padStart(6)].join("");
        console.log(`${name.padEnd(11)}${counts} ${times} ${ratios.map((it) => it.toFixed(2).padStart(8)).join("")}`);
    }
}

// Runs a program in node.
const start = (code) => spawnSync(process.execPath, ["--input-type=module", "--eval", code]);

const numbers = Number(process.argv[2] ?? 18000);
console.log("                          |      ours, ms          |    reference, ms       |  ours / reference");
console.log("name          nodes width    build  layout    both   build  layout    both  layout    both");
const values = lists(numbers);
compare("lists", (m) => listed(m, values));
compare("statements", (m) => statements(m, Math.round(numbers / 2.6)));
const small = ours.group(["f(", ours.indent([ours.softline, "a,", ours.line, "b"]), ours.softline, ")"]);
const many = () => { for (let it = 0; it < 1000; it++) ours.layout(small); };
console.log(`a small document: ${least(repeated(ROUNDS, () => timed(many))).toFixed(1)} µs`);
const module = readFileSync(moduleFile());
console.log(`the module: ${module.length} bytes, ${gzipSync(module, { level: 9 }).length} by gzip`);
const first = `import { layout } from "${new URL("./node.js", import.meta.url)}"; layout(["a", "b"]);`;
const starts = repeated(STARTS, () => ["", first].map((it) => timed(() => start(it))));
const [empty, called] = [0, 1].map((at) => least(starts.map((it) => it[at])).toFixed(0));
console.log(`node: ${empty} ms for an empty program, ${called} ms for one with a first call`);
