// The package that is tested, that of `make js`, or of the directory PACKAGE. In a browser tests/in-browser.mjs has the place of this module.
import { execFileSync } from "node:child_process";
import { readFile } from "node:fs/promises";
import { fileURLToPath, pathToFileURL } from "node:url";

const { COUNT = "3000", HASHES, PACKAGE } = process.env, place = PACKAGE ? pathToFileURL(`${PACKAGE}/`) : new URL("../../../out/js/package/", import.meta.url);
/** The address of the package's module for node. */
export const address = new URL("src/node.js", place).href;
export const vt220 = { ...(await import(address)), ...(await import(new URL("src/timeline.js", place))) };
export const wasm = await readFile(new URL("vt220.wasm", place));

/** Returns the fields of each row of a file that lib/rows/flat.py writes. */
export async function rows(name) {
  execFileSync(fileURLToPath(new URL("../../rows/flat.py", import.meta.url)));
  return (await readFile(new URL(`../../../out/tests/rows/${name}.rows`, import.meta.url), "utf8")).split("\n").slice(0, -1).map((line) => line.split("\t"));
}

/** Returns COUNT inputs, each with the hash of what the library for C makes of it. HASHES is a file that has them already. */
export async function inputs() {
  const made = HASHES ? await readFile(HASHES, "utf8") : execFileSync("python3", [fileURLToPath(new URL("beside.py", import.meta.url)), COUNT], { encoding: "utf8", maxBuffer: Infinity });
  return JSON.parse(made);
}
