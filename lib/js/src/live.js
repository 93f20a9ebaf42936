// live.js: a terminal that plays what comes, and where that comes from. The first bytes are a repaint, and so are those after a reconnection.
import { windowIn } from "./reading.js";
import { Terminal, inStateOf } from "./vt220.js";

const SIZE_EVENT = "size"; // an event with a size as COLUMNSxROWS, and the word before it in a text of a WebSocket
const SHORTEST = 500, LONGEST = 5000; // milliseconds until the next try to connect

/** What a view needs of a timeline, of a terminal that shows only the present. */
export class Live {
  constructor(core, { encoding, terminal, rows, columns }) {
    this.terminal = new Terminal(core, { encoding, terminal, rows, columns });
    this.duration = 0;
  }

  feed(bytes) {
    this.terminal.feed(bytes);
  }

  /** Shows the state of another terminal of the core. */
  show(terminal) {
    this.terminal = inStateOf(terminal, this.terminal);
  }

  seekTime() {
    return this.terminal;
  }

  close() {
    this.terminal.close();
  }
}

/** Returns the bytes of a message: these, or their base64. */
function bytesOf(data) {
  return typeof data === "string" ? Uint8Array.from(atob(data), (byte) => byte.charCodeAt(0)) : new Uint8Array(data);
}

/** Passes on a message of a WebSocket. */
function told(data, { came, resized }) {
  if (typeof data === "string" && data.startsWith(`${SIZE_EVENT} `)) resized(data.slice(SIZE_EVENT.length + 1));
  else came(bytesOf(data));
}

function bySocket(address, { lost, ...acts }) {
  let wait = SHORTEST, socket = null, timer = 0;
  const connect = () => {
    socket = new WebSocket(address);
    socket.binaryType = "arraybuffer";
    socket.onopen = () => (wait = SHORTEST);
    socket.onmessage = ({ data }) => told(data, acts);
    socket.onclose = () => {
      lost();
      timer = setTimeout(connect, wait);
      wait = Math.min(LONGEST, wait * 1.5);
    };
  };
  connect();
  return () => {
    clearTimeout(timer);
    socket.onclose = null;
    socket.onmessage = null;
    socket.close();
  };
}

function byEvents(address, { came, resized, lost }) {
  const source = new EventSource(address);
  source.addEventListener(SIZE_EVENT, ({ data }) => resized(data));
  source.onmessage = ({ data }) => came(bytesOf(data));
  source.onerror = lost;
  return () => source.close();
}

/**
 * Connects to an address: a WebSocket if it begins with ws: or wss:, otherwise an EventSource. Passes the bytes of each message to `came` and each
 * change of the size to `resized`, and calls `lost` when the connection is lost, after which it connects again. Returns a call that ends it.
 */
export function connected(address, { came, resized, lost }) {
  const sized = (text) => windowIn(text) !== null && resized(windowIn(text));
  return (/^wss?:/.test(address) ? bySocket : byEvents)(address, { came, resized: sized, lost });
}
