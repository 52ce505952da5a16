// The page: it hands the text to the worker while one types, and shows what comes back.

"use strict";

// Texts up to this length are laid out at once; longer ones after a pause in typing, in milliseconds.
const SHORT = 20000;
const PAUSE = 200;
// The layout is shown in parts of about this many characters, so that a browser draws those alone that are seen.
const PART = 20000;

const EXAMPLES = {
    json: `{"name":"Ada Lovelace","born":1815,"languages":["en","fr"],
"address":{"city":"London",
"place":{"latitude":51.507,"longitude":-0.1278}},"tags":[],
"sequence":[1,1,2,3,5,8,13,21,34,55,89,144,233],
"note":"my brain is something more than merely mortal"}
`,
    toml: `[package]# the crate
name="hello"
authors=["Ada Lovelace <ada@example.org>",
"Charles Babbage <charles@example.org>"]
keywords=["pretty","printer",# two
"toml"]

[dependencies]
prettyless={version="0.4",features=["arena","terminal"]}
`,
};

EXAMPLES.documents = Object.values(DOCUMENTS)[0];

const NAMES = { json: "Text (JSON)", toml: "Text (TOML)", documents: "Document (JavaScript)" };
const PROMISES = {
    documents: "a layout is the one that a definition names",
    json: "a layout has the same value as your text, each lexeme spelled as it was",
    toml: "a layout has the same statements as your text, each lexeme and comment spelled as it was",
};

const at = (id) => document.getElementById(id);
const [text, layout, paper, status] = ["text", "layout", "paper", "status"].map(at);
const tabs = ["of-texts", "of-documents"].map(at);
const isOfDocuments = () => at("of-documents").getAttribute("aria-selected") === "true";
const language = () => (isOfDocuments() ? "documents" : document.querySelector("[name=language]:checked").value);

// The worker

// Code that takes longer, in milliseconds, is given up.
const PATIENCE = 3000;

function startWorker() {
    const source = URL.createObjectURL(new Blob([at("worker").textContent], { type: "text/javascript" }));
    const started = new Worker(source);
    const module = Uint8Array.from(atob(at("module").textContent), (it) => it.charCodeAt(0));
    started.postMessage({ module }, [module.buffer]);
    started.onmessage = ({ data }) => received(data);
    started.onerror = () => say("This browser starts no worker here, so nothing is laid out.", true);
    return started;
}

// Whether the worker has answered all that it was sent, and whether it is to lay out the text as it is then.
let isFree = false;
let isWanted = false;
let asked = null;
let pause = 0;
let patience = 0;

// Has the text laid out after so many milliseconds, or when the worker is free.
function want(wait) {
    paper.setAttribute("aria-busy", "true");
    at("copied").textContent = "";
    clearTimeout(pause);
    pause = setTimeout(() => { pause = 0; isWanted = true; ask(); }, wait);
}

function ask() {
    if (!isFree || !isWanted) return;
    [isFree, isWanted] = [false, false];
    asked = { text: text.value, options: options() };
    worker.postMessage(asked);
    if (asked.options.language === "documents") patience = setTimeout(giveUp, PATIENCE);
}

// Ends the worker, and starts another, which is free once it has answered to its module.
function giveUp() {
    worker.terminate();
    worker = startWorker();
    showWrong(`The code took more than ${PATIENCE / 1000} seconds.`);
    asked = null;
}

function received({ answered, took, failed }) {
    clearTimeout(patience);
    isFree = true;
    if (failed) say(`Nothing was laid out: ${failed}.`, true);
    if (answered) show(answered, took);
    ask();
    paper.setAttribute("aria-busy", String(!isFree || pause !== 0));
}

// What is shown

function show(answered, took) {
    const { layout: laid, fault, wrong, place } = answered;
    at("figures").textContent = "";
    showTree(answered);
    mark(null);
    if (isBlank(asked.text)) {
        showLayout("");
        say("There is no text yet.", false);
    } else if (fault) {
        showWrong(`Line ${fault.line}, column ${fault.column}: expected ${fault.expected}.`, fault);
    } else if (wrong) {
        showWrong(place ? `Line ${place.line}: ${wrong}` : wrong, place);
    } else {
        showLayout(laid, answered.lines);
        say("Laid out.", false);
        const time = took.toFixed(took < 10 ? 1 : 0);
        at("figures").textContent = `${brokenGroups(answered)}${count(laid.length, "character")} in ${time} ms`;
    }
}

function showWrong(wrong, place) {
    mark(place);
    text.setAttribute("aria-invalid", "true");
    say(wrong, true);
}

// How many groups are broken, in words, of a document that has any.
function brokenGroups({ broken = {} }) {
    const all = Object.values(broken);
    return all.length > 0 ? `${all.filter((it) => it).length} of ${count(all.length, "group")} broken, ` : "";
}

const isBlank = (it) => !/[^ \t\r\n]/.test(it);

// A reader of the screen says the line aloud where it has changed. At a fault the layout is an older one.
function say(line, isFault) {
    status.parentElement.classList.toggle("fault", isFault);
    for (const it of [layout, at("tree").firstElementChild]) it.classList.toggle("stale", isFault);
    at("layout-name").textContent = isFault && shown ? "Layout of an earlier text" : "Layout";
    at("copy").disabled = isFault || !shown;
    if (status.textContent !== line) status.textContent = line;
}

const count = (number, what) => `${number.toLocaleString("en")} ${what}${number === 1 ? "" : "s"}`;

let shown = "";
let pieces;

// Shows a layout: where there are pieces of its lines, with the groups that are broken marked.
function showLayout(lines, marked) {
    if (lines === shown && marked === pieces) return;
    [shown, pieces] = [lines, marked];
    layout.replaceChildren(...(marked ? marked.map(lineOfPieces) : parts(lines).map(partOf)));
}

// The layout cut at ends of lines, without the last line end of each part.
function parts(lines) {
    const cut = [];
    for (let from = 0; from < lines.length; ) {
        const end = lines.indexOf("\n", from + PART);
        cut.push(lines.slice(from, end < 0 ? lines.length : end));
        from = end < 0 ? lines.length : end + 1;
    }
    return cut;
}

// A part, with the height that it has where it is not drawn.
function partOf(lines) {
    const part = document.createElement("div");
    part.textContent = lines;
    part.style.containIntrinsicSize = `auto 0px auto calc(${lines.split("\n").length} * 1.25rem)`;
    return part;
}

function lineOfPieces(line) {
    const part = document.createElement("div");
    part.append(...(line.length > 0 ? line.map(pieceOf) : ["\n"]));
    return part;
}

// A text, which is marked where broken groups are around it: one tint for one or three of them, another for two or four.
function pieceOf({ text: content, depth }) {
    const piece = document.createElement("span");
    piece.textContent = content;
    if (depth > 0) piece.className = depth % 2 === 1 ? "broken" : "broken inner";
    return piece;
}

// The tree, and in it the groups that are broken. Where the code is wrong it is an older one.
function showTree({ tree = [], broken = {}, wrong }) {
    if (wrong) return;
    at("tree").firstElementChild.replaceChildren(...tree.map(({ text: content, group }) => {
        const row = document.createElement("div");
        const isBroken = group !== undefined && broken[group];
        row.textContent = isBroken ? `${content}: broken` : content;
        row.className = isBroken ? "broken" : "";
        return row;
    }));
}

// The fault

// Where a line begins in the text, and where it ends.
function lineOf(whole, line) {
    let from = 0;
    for (let it = 1; it < line; it++) from = whole.indexOf("\n", from) + 1;
    const end = whole.indexOf("\n", from);
    return [from, end < 0 ? whole.length : end];
}

let fault = null;

// Marks the token that begins at a line and a column, which counts characters, from 1 on.
function mark(place) {
    fault = null;
    at("marks").hidden = at("go").hidden = !place;
    text.setAttribute("aria-invalid", String(Boolean(place)));
    if (!place) return;
    const [from, end] = lineOf(asked.text, place.line);
    const line = asked.text.slice(from, end);
    const before = [...line].slice(0, place.column - 1).join("");
    const [token] = line.slice(before.length).match(/^(?:"[^"]*"?|[\w.+-]+|[^]?)/u);
    fault = { line: place.line, from: from + before.length, end: from + before.length + token.length };
    at("before").textContent = before;
    at("mark").textContent = token;
    followScroll();
}

const lineHeight = () => parseFloat(getComputedStyle(text).lineHeight);

function followScroll() {
    if (!fault) return;
    const top = parseFloat(getComputedStyle(text).paddingTop) + (fault.line - 1) * lineHeight() - text.scrollTop;
    at("marked").style.transform = `translate(${-text.scrollLeft}px, ${top}px)`;
}

function goToFault() {
    const { line, from, end } = fault;
    text.focus();
    text.setSelectionRange(from, Math.max(from, end));
    text.scrollTop = (line - 0.5) * lineHeight() - text.clientHeight / 2;
    text.scrollLeft = at("mark").offsetLeft - text.clientWidth / 2;
}

// The options

const OF_JSON = ["fill", "keepBlankLines"];
const CHECKS = [...OF_JSON, "groups", "drawn"];

function options() {
    return { language: language(), ...numbers, ...Object.fromEntries(CHECKS.map((it) => [it, at(it).checked])) };
}

// The numbers that are used: the nearest to those typed that may be. While none is typed the last one stays.
const numbers = { width: 80, indent: 2 };

function takeNumber(id) {
    const { valueAsNumber, min, max } = at(id);
    if (!Number.isNaN(valueAsNumber)) numbers[id] = Math.min(Math.max(Math.trunc(valueAsNumber), min), max);
    at("slider").value = numbers.width;
    paper.style.setProperty("--columns", numbers.width);
}

// Each language has a text of its own.
const texts = { ...EXAMPLES };
let current = "json";

function showLanguage() {
    texts[current] = text.value;
    current = language();
    text.value = texts[current];
    // An example is selected, so that what is pasted takes its place.
    if (text.value === EXAMPLES[current] && !isOfDocuments()) text.setSelectionRange(0, text.textLength);
    for (const it of OF_JSON) at(it).disabled = current !== "json";
    at("promise").textContent = PROMISES[current];
    at("text-name").textContent = NAMES[current];
    showExample();
}

// Which tab is chosen, and what belongs to it.
function showTab(tab) {
    for (const it of tabs) {
        it.setAttribute("aria-selected", String(it === tab));
        it.tabIndex = it === tab ? 0 : -1;
        for (const part of document.getElementsByClassName(it.id)) part.hidden = it !== tab;
    }
    at("panel").setAttribute("aria-labelledby", tab.id);
    showLanguage();
    showDrawn();
}

function showDrawn() {
    layout.classList.toggle("plain", !at("groups").checked);
    at("tree").hidden = !isOfDocuments() || !at("drawn").checked;
}

function chooseTab(tab) {
    showTab(tab);
    want(0);
}

// The keys that go from one tab to the other, which is chosen at once.
function walkTabs(event) {
    const other = { ArrowLeft: 0, Home: 0, ArrowRight: 1, End: 1 }[event.key];
    if (other === undefined) return;
    event.preventDefault();
    tabs[other].focus();
    chooseTab(tabs[other]);
}

// The example that the code is, or that it is another.
function showExample() {
    const index = Object.values(DOCUMENTS).indexOf(text.value);
    at("example").selectedIndex = index < 0 ? Object.keys(DOCUMENTS).length : index;
}

function offerExamples() {
    const names = [...Object.keys(DOCUMENTS), "Your own"];
    at("example").replaceChildren(...names.map((it) => new Option(it)));
    at("example").lastElementChild.disabled = true;
}

function takeExample() {
    text.value = DOCUMENTS[at("example").value];
    want(0);
}

// Options and short texts are kept over a reload, where the browser keeps anything for such a page. An empty text is
// not, so that its example comes back.
const KEPT = "yezhgulo";
const isKept = ([, it]) => it.length <= SHORT && !isBlank(it);

function keep() {
    texts[current] = text.value;
    const short = Object.fromEntries(Object.entries(texts).filter(isKept));
    try {
        localStorage.setItem(KEPT, JSON.stringify({ ...options(), texts: short }));
    } catch { /* It keeps nothing. */ }
}

function kept() {
    try {
        return JSON.parse(localStorage.getItem(KEPT));
    } catch {
        return {};
    }
}

function takeKept() {
    const { language, texts: short, ...others } = { language: "json", ...options(), ...kept() };
    Object.assign(texts, short);
    for (const it of document.getElementsByName("language")) it.checked ||= it.value === language;
    for (const it of Object.keys(numbers)) at(it).value = others[it];
    for (const it of CHECKS) at(it).checked = others[it];
    Object.keys(numbers).forEach(takeNumber);
    text.value = texts[current];
    showTab(at(language === "documents" ? "of-documents" : "of-texts"));
}

function drawRuler() {
    const places = Array.from({ length: Number(at("width").max) / 5 + 1 }, (_, it) => it * 5);
    at("ruler").replaceChildren(...places.map((column) => {
        const tick = document.createElement("span");
        tick.style.left = `calc(0.75rem + ${column} * 1ch)`;
        if (column % 10 === 0) tick.dataset.column = column;
        return tick;
    }));
}

// In the layout the keys that select all select it alone.
function selectLayout(event) {
    if (!(event.ctrlKey || event.metaKey) || event.altKey || event.key.toLowerCase() !== "a") return;
    event.preventDefault();
    getSelection().selectAllChildren(layout);
}

async function copy() {
    try {
        await navigator.clipboard.writeText(shown);
        at("copied").textContent = "Copied.";
    } catch {
        getSelection().selectAllChildren(layout);
        at("copied").textContent = "Selected: copy it by the keyboard.";
    }
}

offerExamples();
takeKept();
drawRuler();
say("Loading.", false);
let worker = startWorker();
want(0);

text.addEventListener("input", () => { showExample(); want(text.textLength > SHORT ? PAUSE : 0); });
text.addEventListener("scroll", followScroll, { passive: true });
for (const id in numbers) {
    at(id).addEventListener("input", () => { takeNumber(id); want(0); });
    at(id).addEventListener("change", () => { at(id).value = numbers[id]; });
}
at("slider").addEventListener("input", () => {
    at("width").value = at("slider").value;
    takeNumber("width");
    want(0);
});
for (const it of OF_JSON) at(it).addEventListener("input", () => want(0));
for (const it of ["groups", "drawn"]) at(it).addEventListener("input", showDrawn);
at("example").addEventListener("input", takeExample);
for (const it of tabs) {
    it.addEventListener("click", () => chooseTab(it));
    it.addEventListener("keydown", walkTabs);
}
for (const it of document.getElementsByName("language")) {
    it.addEventListener("change", () => { showLanguage(); want(0); });
}
at("go").addEventListener("click", goToFault);
at("copy").addEventListener("click", copy);
paper.addEventListener("keydown", selectLayout);
addEventListener("resize", followScroll);
for (const it of ["pagehide", "visibilitychange"]) addEventListener(it, keep);
