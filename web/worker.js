// The worker: first it gets the module's bytes, and then texts with options, one after another. It answers each message.

"use strict";

let printer;

const isFault = (failure) => failure instanceof errors.JsonError || failure instanceof errors.TomlError;

// The layout of a text, or where it is wrong and what was expected there.
function textLayout(text, { language, ...options }) {
    const format = language === "toml" ? printer.formatToml : printer.formatJson;
    try {
        return { layout: format(text, options) };
    } catch (failure) {
        if (!isFault(failure)) throw failure;
        const { line, column, expected } = failure;
        return { fault: { line, column, expected } };
    }
}

async function answer({ module, text, options }) {
    if (module) printer = WebAssembly.compile(module).then((it) => calls.printerOf(it));
    printer = await printer;
    if (module) return {};
    const begun = performance.now();
    const answered = options.language === "documents" ? documentLayout(printer, text, options) : textLayout(text, options);
    return { answered, took: performance.now() - begun };
}

onmessage = async ({ data }) => {
    try {
        postMessage(await answer(data));
    } catch (failure) {
        const isShort = failure instanceof errors.MemoryError;
        postMessage({ failed: isShort ? "there is too little memory" : String(failure) });
    }
};
