// searcher.js: searches in a Worker, so that the page can be used meanwhile. Without a Worker they are on the page's thread.

/** Returns a Worker that serves what serving.js does. A script in one file makes it of its own text. */
export function newWorker() {
  return new Worker(new URL("./worker.js", import.meta.url), { type: "module" });
}

export class Searcher {
  #line;
  #begin;
  #worker = null;
  #isBusy = false;
  #isAlone = false;

  /** Searches in `line`, which is of a recording and such options, on a core. */
  constructor(core, line, recording, options) {
    this.#line = line;
    this.#begin = { module: core.module, recording, options };
  }

  /** Whether searches are on the page's thread. */
  get isAlone() {
    return this.#isAlone;
  }

  close() {
    this.#worker?.terminate();
    this.#worker = null;
    this.#isBusy = false;
  }

  /** Returns a promise of the spans of a search. An earlier search that isn't over never ends. */
  async search(text, how) {
    if (this.#isBusy) this.close();
    const answer = await this.#asked({ text, how });
    if (answer === null) return this.#line.search(text, how);
    if ("fault" in answer) throw new Error(answer.fault);
    return answer.spans;
  }

  /** Returns a promise of the Worker's answer, or of null if there is no Worker. */
  #asked(message) {
    return new Promise((resolve) => {
      const fail = () => {
        this.close();
        this.#isAlone = true;
        resolve(null);
      };
      if (this.#isAlone) return resolve(null);
      try {
        this.#worker ??= this.#begun();
      } catch {
        return fail();
      }
      this.#isBusy = true;
      this.#worker.onerror = fail;
      this.#worker.onmessage = ({ data }) => {
        this.#isBusy = false;
        resolve(data);
      };
      this.#worker.postMessage(message);
    });
  }

  #begun() {
    const worker = newWorker();
    worker.postMessage(this.#begin);
    return worker;
  }
}
