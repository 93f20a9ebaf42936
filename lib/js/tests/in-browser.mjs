// What tests/*.test.mjs import, in a browser: node:test, node:assert and package.mjs, as far as they use these. An import map leads here.
const script = vt220;
export { script as vt220 };
export const wasm = new Uint8Array(await (await fetch("/vt220/vt220.wasm")).arrayBuffer());

/** Returns the fields of each row of a file that lib/rows/flat.py wrote. */
export const rows = async (name) => (await (await fetch(`/rows/${name}.rows`)).text()).split("\n").slice(0, -1).map((line) => line.split("\t"));

/** Returns inputs with hashes of what the library for C makes of them. */
export const inputs = async () => (await fetch("/hashes.json")).json();

const tests = [];
export const test = (name, act) => tests.push([name, act]);

/** Runs the tests in their order. Returns how many they are, and the faults. */
export async function ran() {
  const faults = [];
  for (const [name, act] of tests) {
    try {
      await act();
    } catch (fault) {
      faults.push(`${name}: ${fault} ${fault.stack}`);
    }
  }
  return { count: tests.length, faults };
}

export default function assert(isSo, what) {
  if (!isSo) throw new Error(what);
}

assert.equal = (found, wanted, what) => assert(Object.is(found, wanted), `${what}: ${found}, and not ${wanted}`);
assert.deepEqual = (found, wanted, what) => assert.equal(JSON.stringify(found), JSON.stringify(wanted), what);
assert.throws = (call, wanted = {}, what = "") => {
  let fault = null;
  try {
    call();
  } catch (error) {
    fault = error;
  }
  assert(fault !== null && Object.entries(wanted).every(([key, value]) => fault[key] === value), `${what}: ${fault}`);
};
