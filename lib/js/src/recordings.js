// recordings.js: the reader of a page. It reads a large recording in a Worker, so that the page can be used meanwhile.
import { readBy } from "./reader.js";
import { newWorker } from "./searcher.js";

const LARGE = 1 << 20; // bytes

/** Returns the bytes of reader.wasm next to this module, as a response. */
async function nearbyReader() {
  return fetch(new URL("../reader.wasm", import.meta.url));
}

/** Compiles the module of the reader: of bytes, of a response, or of a promise of one. */
async function compiledReader(source) {
  const it = await source;
  if (it instanceof WebAssembly.Module) return it;
  if (it.ok === false) throw new TypeError(`reader.wasm could not be fetched: status ${it.status}`);
  return WebAssembly.compile(typeof it.arrayBuffer === "function" ? await it.arrayBuffer() : it);
}

/** Returns a promise of what a Worker answers, or of null if there is no Worker. */
function askedOnce(message) {
  return new Promise((resolve) => {
    try {
      const worker = newWorker();
      const end = (answer) => (worker.terminate(), resolve(answer));
      worker.onerror = () => end(null);
      worker.onmessage = ({ data }) => end(data);
      worker.postMessage(message);
    } catch {
      resolve(null);
    }
  });
}

export class Reader {
  #module;

  /** Takes the bytes of reader.wasm, its module, a response with them, or a promise of one. */
  constructor(source = nearbyReader()) {
    this.#module = compiledReader(source);
  }

  /** Reads a file and perhaps its timing file, as readBy() does. */
  async read(file, timing = null) {
    const reader = await this.#module, answer = file.length < LARGE ? null : await askedOnce({ reader, file, timing });
    if (answer === null) return readBy(reader, file, timing);
    if ("fault" in answer) throw new RangeError(answer.fault);
    return answer.read;
  }
}
