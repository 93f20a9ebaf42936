// serving.js: what a Worker does. Its first message has a module and a recording, and each later one what to search for. Or its only message
// has a module of the reader and a file to read.
import { readBy } from "./reader.js";
import { Timeline } from "./timeline.js";
import { load } from "./vt220.js";

/** Returns the spans of a search, or the fault of it, as a message. */
async function searched(line, { text, how }) {
  try {
    return { spans: (await line).search(text, how) };
  } catch (error) {
    return { fault: error.message };
  }
}

/** Posts what the reader reads of a file, or its fault. */
async function read({ reader, file, timing }) {
  try {
    const it = await readBy(reader, file, timing), { times, lengths, kinds } = it.events;
    postMessage({ read: it }, [times, lengths, kinds, it.text].map((array) => array.buffer));
  } catch (error) {
    postMessage({ fault: error.message });
  }
}

export function serve() {
  let line = null;
  addEventListener("message", async ({ data }) => {
    if (data.reader) return read(data);
    if (line !== null) return postMessage(await searched(line, data));
    line = load(data.module).then((core) => new Timeline(core, data.recording, data.options));
  });
}
