// Tests what keys send, by the rows of lib/rows/keys.txt and xterm-keys.txt.
import assert from "node:assert/strict";
import { test } from "node:test";
import { rows, vt220 } from "./package.mjs";

const core = await vt220.load(), LANGUAGES = [{}, { encoding: "utf-8" }, { terminal: "xterm" }];
const ERRORS = { "no key": "NO_KEY", "no character": "NO_CHARACTER" };

/** Returns what a key sends in hex, or the code of its error. */
function sent(key, modes, options) {
  try {
    return Array.from(core.key(key, modes, options), (byte) => byte.toString(16).padStart(2, "0")).join("");
  } catch (error) {
    return error.code;
  }
}

test("the rows", async () => {
  const all = await rows("keys");
  for (const [language, setting, key, wanted] of all) {
    const modes = { lnm: (setting & 8) > 0, decckm: (setting & 4) > 0, keypadApplication: (setting & 2) > 0, reports8bit: (setting & 1) > 0 };
    assert.equal(sent(key, modes, LANGUAGES[language]), ERRORS[wanted] ?? wanted, `${key} under ${setting} in ${language}`);
  }
  assert(all.length > 6000);
});

test("a character in UTF-8", () => {
  assert.equal(sent("€", {}, { encoding: "utf-8" }), "e282ac");
  assert.equal(sent("€", {}), "NO_CHARACTER");
});
