// Where the module is, in node.

import { existsSync } from "node:fs";

// The one that the environment names, or that of the package, or in a checkout that of tools/web.
const NAMED = process.env.PRETTYLESS_WASM;
const PLACES = ["./prettyless.wasm", "../out/prettyless.wasm"].map((it) => new URL(it, import.meta.url));

export function moduleFile() {
    const found = NAMED || PLACES.find((it) => existsSync(it));
    if (!found) throw new Error(`there is no ${PLACES[0].pathname}: in a checkout, tools/web makes it`);
    return found;
}
