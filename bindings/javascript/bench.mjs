// SPDX-License-Identifier: Apache-2.0
// Times the calls of the module, next to bench.c, and the methods of the classes: node bench.mjs, after ./stage build/hll-sketches
import fs from "node:fs";
import { make } from "./build/hll-sketches/core.mjs";

const { instance: { exports: wasm } } = await WebAssembly.instantiate(fs.readFileSync(new URL("./build/hll-sketches/hll.wasm", import.meta.url)));
const IMAGES = 32, VALUES = 9000, MANY = 100000, ROOM = 40 + (5 << 12);
const size = wasm.alloc(16), out = wasm.alloc(ROOM), registers = wasm.alloc(4096), report = wasm.alloc(512), values = wasm.alloc(8 * MANY), ends = wasm.alloc(8 * VALUES);
const bytes = () => new Uint8Array(wasm.memory.buffer), view = () => new DataView(wasm.memory.buffer);

let next = 1n;
function fill(n) {
  const memory = view();
  for (let i = 0; i < n; i++) memory.setBigUint64(values + 8 * i, next++, true);
}

/** Prints the least time of a call in nanoseconds, over some rounds of `n` calls. */
function time(name, n, work, rounds = 15) {
  let best = Infinity;
  for (let round = 0; round < rounds; round++) {
    const begun = performance.now();
    work(n);
    best = Math.min(best, performance.now() - begun);
  }
  console.log(`${name.padEnd(36)} ${(best * 1e6 / n).toFixed(1).padStart(10)} ns`);
}

function ensure(status) {
  if (status !== 0) throw new Error(`status ${status}`);
}

// ---- the calls, as in bench.c

for (let i = 0; i < VALUES; i++) view().setBigUint64(ends + 8 * i, BigInt(8 * (i + 1)), true);
const sets = [8, 6, 4].map((width) => Array.from({ length: IMAGES }, () => {
  fill(VALUES);
  const empty = wasm.alloc(8);
  ensure(wasm.hll_image_new(12, width, empty, 8, size));
  ensure(wasm.hll_image_add(empty, 8, values, 8 * VALUES, ends, VALUES, out, ROOM, size));
  const len = view().getUint32(size, true), at = wasm.alloc(len);
  bytes().copyWithin(at, out, out + len);
  return [at, len];
}));
fill(MANY);
bytes().fill(0, registers, registers + 4096);
const counter = wasm.counter_new(12, 12);
[8, 6, 4].forEach((width, w) => {
  const image = (k) => sets[w][k % IMAGES];
  time(`join an image, width ${width}`, 3200, (n) => { wasm.hll_counter_reset(counter); for (let k = 0; k < n; k++) ensure(wasm.hll_counter_join(counter, ...image(k))); });
  time(`merge two images, width ${width}`, 320, (n) => { for (let k = 0; k < n; k++) ensure(wasm.hll_image_merge(12, width, ...image(k), ...image(k + 1), out, ROOM, size, size + 8)); });
  time(`estimate from an image, width ${width}`, 320, (n) => { for (let k = 0; k < n; k++) ensure(wasm.hll_estimate(...image(k), report)); });
});
time("check an image, width 8", 3200, (n) => { for (let k = 0; k < n; k++) ensure(wasm.hll_image_check(...sets[0][k % IMAGES])); });
time("add 8 bytes to a counter", MANY, (n) => { for (let k = 0; k < n; k++) ensure(wasm.hll_counter_add(counter, values + 8 * k, 8)); });
time("add 8 bytes to registers", MANY, (n) => { ensure(wasm.hll_registers_add_fixed(registers, 4096, values, 8 * n, 8)); });

// ---- the classes

const { Sketch, Union } = make(wasm), strings = Array.from({ length: MANY }, (_, i) => `user ${i}`), numbers = Array.from({ length: MANY }, (_, i) => i), sketch = new Sketch(12);
time("Sketch.add(string)", MANY, () => { for (const it of strings) sketch.add(it); }, 7);
time("Sketch.add(number)", MANY, () => { for (const it of numbers) sketch.add(it); }, 7);
time("Sketch.addMany(strings)", MANY, () => sketch.addMany(strings), 7);
time("Sketch.addMany(numbers)", MANY, () => sketch.addMany(numbers), 7);
time("Sketch.addMany(Int32Array)", MANY, () => sketch.addMany(Int32Array.from(numbers)), 7);
const images = Array.from({ length: IMAGES }, (_, i) => new Sketch(12).addMany(numbers.slice(0, VALUES).map((n) => n * IMAGES + i)).toBytes());
time("Union.add(Uint8Array)", 3200, (n) => { const union = new Union({ lgMaxK: 12 }); for (let k = 0; k < n; k++) union.add(images[k % IMAGES]); union.free(); }, 7);
time("Sketch.fromBytes", 3200, (n) => { for (let k = 0; k < n; k++) Sketch.fromBytes(images[k % IMAGES]); }, 7);
time("Sketch.estimate, of registers", 3200, (n) => { for (let k = 0; k < n; k++) sketch.estimate(); }, 7);
time("Sketch.toBytes, of registers", 3200, (n) => { for (let k = 0; k < n; k++) sketch.toBytes(); }, 7);
