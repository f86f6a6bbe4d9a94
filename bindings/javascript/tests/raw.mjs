// SPDX-License-Identifier: Apache-2.0
// The calls of a module as they are, for tests: each returns its status and what it wrote.
import fs from "node:fs";

export async function open(path) {
  const { instance } = await WebAssembly.instantiate(fs.readFileSync(path));
  return new Raw(instance.exports);
}

export class Raw {
  constructor(wasm) {
    this.wasm = wasm;
    this.size = wasm.alloc(16);
    this.failed = this.size + 8;
    this.report = wasm.alloc(512);
  }
  get u8() {
    if (this.bytes === undefined || this.bytes.buffer !== this.wasm.memory.buffer) this.bytes = new Uint8Array(this.wasm.memory.buffer);
    return this.bytes;
  }
  word(at) {
    return new DataView(this.wasm.memory.buffer).getUint32(at, true);
  }
  put(bytes) {
    const at = this.wasm.alloc(bytes.length || 1);
    if (at === 0) throw new Error("no memory for a test");
    this.u8.set(bytes, at);
    return at;
  }
  /** Calls with inputs placed; `reads` is how many bytes of the report it writes, or -1 for an image into a buffer. */
  run(name, inputs, call, reads, room = 0) {
    const places = inputs.map((bytes) => this.put(bytes));
    const out = room ? this.wasm.alloc(room) : 0;
    try {
      const status = call(this.wasm[name], places, out, room);
      if (status !== 0) return { status, failed: this.word(this.failed) };
      const bytes = reads < 0 ? this.u8.slice(out, out + this.word(this.size)) : this.u8.slice(this.report, this.report + reads);
      return { status, bytes };
    } finally {
      places.forEach((at) => this.wasm.free(at));
      if (out) this.wasm.free(out);
    }
  }
  report_of(name, image, reads) {
    this.u8.fill(0, this.report, this.report + 512);
    return this.run(name, [image], (f, [at]) => f(at, image.length, this.report), reads);
  }
  info(image) { return this.report_of("hll_image_info", image, 64); }
  histogram(image) { return this.report_of("hll_image_histogram", image, 512); }
  estimate(image) { return this.report_of("hll_estimate", image, 64); }
  hip(image) { return this.report_of("hll_hip_estimate", image, 64); }
  sizeOf(image) { return this.report_of("hll_image_size", image, 8); }
  check(image) { return this.run("hll_image_check", [image], (f, [at]) => f(at, image.length), 0); }
  fresh(lgK, width) { return this.run("hll_image_new", [], (f, _, out, room) => f(lgK, width, out, room, this.size), -1, 64); }
  convert(image, width, room) { return this.run("hll_image_convert", [image], (f, [at], out, room) => f(at, image.length, width, out, room, this.size), -1, room); }
  fold(image, lgK, room) { return this.run("hll_image_fold", [image], (f, [at], out, room) => f(at, image.length, lgK, out, room, this.size), -1, room); }
  setFields(image, room) { return this.run("hll_image_set_estimator_fields", [image], (f, [at], out, room) => f(at, image.length, out, room, this.size), -1, room); }
  clearFields(image, room) { return this.run("hll_image_clear_estimator_fields", [image], (f, [at], out, room) => f(at, image.length, out, room, this.size), -1, room); }
  coupon(image, slot, value, room) { return this.run("hll_image_add_coupon", [image], (f, [at], out, room) => f(at, image.length, slot, value, out, room, this.size), -1, room); }
  add(image, values, ends, room) { return this.run("hll_image_add", [image, values, new Uint8Array(BigUint64Array.from(ends, BigInt).buffer)], (f, [at, v, e], out, room) => f(at, image.length, v, values.length, e, ends.length, out, room, this.size), -1, room); }
  merge(a, b, lgMaxK, width, room) { return this.run("hll_image_merge", [a, b], (f, [x, y], out, room) => f(lgMaxK, width, x, a.length, y, b.length, out, room, this.size, this.failed), -1, room); }
  union(images, lgMaxK, width, room) {
    const joined = Buffer.concat(images), ends = [];
    images.reduce((end, it) => (ends.push(BigInt(end + it.length)), end + it.length), 0);
    return this.run("hll_images_union", [joined, new Uint8Array(BigUint64Array.from(ends).buffer)], (f, [at, e], out, room) => f(lgMaxK, width, at, joined.length, e, images.length, out, room, this.size, this.failed), -1, room);
  }
  agree(a, b) { return this.run("hll_images_agree", [a, b], (f, [x, y]) => f(x, a.length, y, b.length, this.report, this.failed), 1); }
}
