// The package without a module: `printerOf` takes one that is compiled already.

export { printerOf } from "./calls.js";
export * from "./documents.js";
export * from "./errors.js";
