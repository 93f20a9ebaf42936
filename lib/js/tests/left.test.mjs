// Tests that terminals which nothing refers to are closed, and that those of a broken core are left without a fault. And a worker of node.
import assert from "node:assert/strict";
import { test } from "node:test";
import { setFlagsFromString } from "node:v8";
import { runInNewContext } from "node:vm";
import { Worker } from "node:worker_threads";
import { address, vt220 } from "./package.mjs";

setFlagsFromString("--expose-gc");
const { load, Terminal } = vt220, COUNT = 50, gc = runInNewContext("gc");

/** Opens terminals that nothing refers to afterwards. Calls `told` when each was collected. */
function leave(core, told) {
  const registry = new FinalizationRegistry(told);
  for (let i = 0; i < COUNT; i++) registry.register(new Terminal(core), i);
  return registry;
}

/** Collects until the terminals that were left are gone. Those that were left before them are gone then, too. */
async function collected(core) {
  let gone = 0;
  const registry = leave(core, () => gone++);
  while (gone < COUNT) {
    gc();
    await new Promise((resolve) => setTimeout(resolve, 10));
  }
  return registry;
}

test("terminals that are left are closed", async () => {
  const core = await load(), { close } = core.calls;
  let closed = 0;
  core.calls.close = (at) => (closed++, close(at));
  await collected(core);
  await collected(core);
  assert(closed >= COUNT);
});

// A fault would be an exception that nothing catches, which fails the test.
test("terminals of a broken core are left", async () => {
  const broken = await load(), other = await load();
  leave(broken, () => {});
  assert.throws(() => broken.calls.text(0xfffffff0));
  await collected(other);
  await collected(other);
});

test("a worker", async () => {
  const script = `import { load, Terminal } from ${JSON.stringify(address)};
import { parentPort } from "node:worker_threads";
const terminal = new Terminal(await load());
terminal.feed(new TextEncoder().encode("in a worker"));
parentPort.postMessage(terminal.rowText(1));`;
  const worker = new Worker(new URL(`data:text/javascript,${encodeURIComponent(script)}`));
  assert.equal(await new Promise((resolve, reject) => worker.once("message", resolve).once("error", reject)), "in a worker");
});
