// Uses the package by its names, as an application does.
import assert from "node:assert/strict";
import { readFile } from "node:fs/promises";
import { createRequire } from "node:module";
import { load, Terminal } from "vt220";
import { Timeline } from "vt220/timeline";

const core = await load(), terminal = new Terminal(core);
const replies = terminal.feed(new TextEncoder().encode("Hello\r\n\x1b[6n"));
assert.equal(terminal.rowText(1), "Hello");
assert.equal(new TextDecoder().decode(replies), "\x1b[2;1R");
const line = new Timeline(core, { bytes: new TextEncoder().encode("one\r\ntwo"), times: [1, 2], ends: [3, 8] });
assert.equal(line.seekTime(1).rowText(2), "");
assert.equal(line.seekTime(2).rowText(2), "two");
assert.equal(line.search("two")[0].time, 2);
const wasm = await readFile(createRequire(import.meta.url).resolve("vt220/vt220.wasm"));
assert.equal((await load(wasm)).version, core.version);
