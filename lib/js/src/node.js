// node.js: the package in node, in which load() reads vt220.wasm as a file. A bundler for browsers never sees this module.
import { readFile } from "node:fs/promises";
import * as vt220 from "./vt220.js";

export * from "./vt220.js";

export function load(source = readFile(new URL("../vt220.wasm", import.meta.url))) {
  return vt220.load(source);
}
