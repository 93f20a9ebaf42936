// Uses what the types take of the library of browsers; tsc --strict has to accept it.
import { load } from "vt220";
import type { Source } from "vt220";

export async function use(response: Response, module: WebAssembly.Module, buffer: ArrayBuffer): Promise<void> {
  const sources: Source[] = [response, module, buffer, new DataView(buffer)];
  for (const source of sources) await load(source);
  await load(fetch("vt220.wasm"));
  await load(WebAssembly.compileStreaming(fetch("vt220.wasm")));
}
