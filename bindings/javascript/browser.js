// The package in browsers and their workers: the module is fetched from beside this file.

import { printerOf } from "./printer.js";

async function compiled(address) {
    const answer = await fetch(address);
    if (!answer.ok) throw new Error(`${address}: ${answer.status}`);
    return WebAssembly.compile(await answer.arrayBuffer());
}

const module = await compiled(new URL("./prettyless.wasm", import.meta.url));

export const { layout, formatJson, formatToml } = printerOf(module);
export * from "./printer.js";
