// The package in node: the module is read from a file, so that nothing has to be waited for.

import { readFileSync } from "node:fs";
import { moduleFile } from "./module_file.js";
import { printerOf } from "./printer.js";

export const { layout, formatJson, formatToml } = printerOf(new WebAssembly.Module(readFileSync(moduleFile())));
export * from "./printer.js";
