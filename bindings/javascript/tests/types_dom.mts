// SPDX-License-Identifier: Apache-2.0
// Uses load with what TypeScript knows by its library "dom".
import { Module, load } from "hll-sketches/load";

const source: WebAssembly.Module | Response | BufferSource = new Uint8Array(8);
const modules: Promise<Module>[] = [load(fetch("hll.wasm")), load(new Response()), load(WebAssembly.compileStreaming(fetch("hll.wasm"))), load(source)];
export { modules };
