import type { Printer } from "./printer.js";

export * from "./printer.js";
export declare const layout: Printer["layout"];
export declare const formatJson: Printer["formatJson"];
export declare const formatToml: Printer["formatToml"];
