// Uses each type of the package; tsc --strict has to accept it, and to refuse the lines after @ts-expect-error.
import { COLUMNS, load, MOST_COLUMNS, MOST_ROWS, ROWS, Terminal, Vt220Error } from "vt220";
import type { Attributes, Cell, Code, Core, Cursor, Encoding, Held, Margins, Modes, Options, Saved, Sets, TerminalName } from "vt220";
import { Timeline } from "vt220/timeline";
import type { Difference, Recording, SizeChange, Span } from "vt220/timeline";

export async function use(bytes: Uint8Array): Promise<string> {
  const core: Core = await load(), from: Core = await load(bytes), rows: 24 = ROWS, columns: 132 = COLUMNS, most: [255, 255] = [MOST_ROWS, MOST_COLUMNS];
  const terminal = new Terminal(core), other = new Terminal(from, { encoding: "utf-8" });
  const xterm = new Terminal(core, { terminal: "xterm" }), name: TerminalName = xterm.terminal, isAlternate: boolean = xterm.alternate, rebuilt: Uint8Array = xterm.repaint("vt220");
  const size: Options = { terminal: "xterm", rows: 40, columns: 120 }, large = new Terminal(core, size), copied: Terminal = large.copy(), numbers: [number, number] = [large.rows, large.width];
  large.resize(30, 100);
  const encoding: Encoding = other.encoding, pending: Uint8Array = other.pending, shown: string = core.shown("x");
  const replies: Uint8Array = terminal.feed(bytes), { lines }: { lines: string[] } = terminal.feedLog(bytes);
  const cells: Cell[] = terminal.cells(1), cursor: Cursor = terminal.cursor, margins: Margins = terminal.margins, modes: Modes = terminal.modes;
  const brush: Attributes = terminal.brush, sets: Sets = terminal.sets, saved: Saved = terminal.saved, held: Held = terminal.held;
  const parts: [Uint8Array, Uint8Array, boolean, number[], boolean[]] = [terminal.repaint(), terminal.update(other), terminal.sameState(other), terminal.changedRows(other), terminal.rowChanges(other, 1)];
  const drawings: Uint8Array[] = [terminal.draw(), terminal.draw(null), terminal.draw(other)];
  const changes: SizeChange[] = [{ chunk: 0, rows: 30, columns: 90 }];
  const recording: Recording = { bytes, times: [0], ends: Float64Array.of(bytes.length), sizes: changes };
  const line = new Timeline(core, recording, { every: 100, encoding, terminal: name, rows: 40, columns: 120 }), spans: Span[] = line.search("x", { matchCase: true, expression: true, limit: 3 });
  const difference: Difference | null = line.firstDifference(line), available: number = line.available;
  try {
    terminal[Symbol.dispose]();
  } catch (error) {
    if (error instanceof Vt220Error) { const code: Code = error.code; return code; }
  }
  // @ts-expect-error: a name isn't the module
  await load("vt220.wasm");
  // @ts-expect-error: text isn't bytes
  terminal.feed("text");
  // @ts-expect-error: the width is read
  terminal.width = 80;
  // @ts-expect-error: a terminal needs its core
  new Terminal();
  // @ts-expect-error: a size is two numbers
  large.resize("30x100");
  // @ts-expect-error: no such encoding
  new Terminal(core, { encoding: "latin-1" });
  // @ts-expect-error: no such terminal
  new Terminal(core, { terminal: "vt100" });
  return [rows, columns, most, copied.rows, numbers, replies, lines, cells, cursor, margins, modes, brush, sets, saved, held, parts, pending, shown, spans, difference, available, isAlternate, core.key("Up", modes), core.keyLength(bytes), line.seek(1).text()].join();
}
