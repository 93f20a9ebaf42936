// incoming.js: a file that comes from a source, of which the beginning is there before the rest.

const PART = 1 << 18; // bytes

/** A file that comes as a stream of bytes. `size` is how many there are, or 0 if that isn't known. */
class Coming {
  #reader;
  #bytes;
  #size = 0;

  constructor(stream, size) {
    this.#reader = stream.getReader();
    this.#bytes = new Uint8Array(size);
  }

  #append(part) {
    const end = this.#size + part.length;
    if (end > this.#bytes.length) {
      const larger = new Uint8Array(Math.max(end, 2 * this.#size, PART));
      larger.set(this.#bytes.subarray(0, this.#size));
      this.#bytes = larger;
    }
    this.#bytes.set(part, this.#size);
    this.#size = end;
  }

  async first(size) {
    while (this.#size < size) {
      const { value } = await this.#reader.read();
      if (value === undefined) break;
      this.#append(value);
    }
    return this.#bytes.subarray(0, Math.min(size, this.#size));
  }

  async whole() {
    const bytes = await this.first(Infinity);
    return bytes.length === this.#bytes.length ? bytes : bytes.slice();
  }
}

/** Returns bytes as a file. */
export function fileOf(bytes) {
  return { first: async (size) => bytes.subarray(0, size), whole: async () => bytes };
}

/**
 * Returns a promise of a file that comes from a source: an address, a file, or bytes. Its call `first` returns a promise of its first bytes, so
 * many if there are as many, and its call `whole` one of all. Neither waits for more than it returns.
 */
export async function incoming(source) {
  if (source instanceof ArrayBuffer) return fileOf(new Uint8Array(source));
  if (ArrayBuffer.isView(source)) return fileOf(new Uint8Array(source.buffer, source.byteOffset, source.byteLength));
  if (source instanceof Blob) {
    const read = async (part) => new Uint8Array(await part.arrayBuffer());
    return { first: (size) => read(source.slice(0, size)), whole: () => read(source) };
  }
  const response = await fetch(source);
  if (!response.ok) throw new TypeError(`${source} has the status ${response.status}`);
  if (/^text\/html\b/.test(response.headers.get("Content-Type"))) throw new TypeError(`${source} is a page in HTML, and no recording`);
  return new Coming(response.body, 0);
}
