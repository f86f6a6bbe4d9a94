// SPDX-License-Identifier: Apache-2.0
// Measures how much of the stack of 256 KiB the calls use, over images up to lg_k 21: stack.mjs MODULE. More than a quarter fails.
import fs from "node:fs";
import { open } from "./raw.mjs";

const STACK = 262144, MOST = STACK / 4, raw = await open(process.argv[2]), { wasm } = raw;
raw.u8.fill(0xa5, 0, STACK);
const used = () => STACK - raw.u8.subarray(0, STACK).findIndex((byte) => byte !== 0xa5);
const room = 40 + (5 << 21), ends = (n) => Array.from({ length: n }, (_, i) => 8 * (i + 1));
const eights = (n) => new Uint8Array(BigUint64Array.from({ length: n }, (_, i) => BigInt(i)).buffer);

/** Reverses the coupons of a set, so that a reader makes a table. */
function reversed(image) {
  const coupons = new Uint32Array(image.buffer.slice(image.byteOffset + 12, image.byteOffset + image.length));
  image.set(new Uint8Array(coupons.reverse().buffer), 12);
}

let greatest = 0;
for (const [lgK, width, n] of [[12, 8, 9000], [21, 4, 3000000], [21, 8, 150000], [21, 6, 3000000], [14, 8, 100]]) {
  const image = Buffer.from(raw.add(Buffer.from(raw.fresh(lgK, width).bytes), eights(n), ends(n), room).bytes);
  if ((image[7] & 3) === 1) reversed(image);
  for (const call of ["check", "info", "histogram", "estimate"]) raw[call](image);
  raw.convert(image, 4, room);
  raw.fold(image, 8, room);
  raw.merge(image, image, 21, 4, room);
  raw.union([image, image], 20, 6, room);
  raw.agree(image, image);
  raw.setFields(image, room);
  const counter = wasm.counter_new(21, 21), other = wasm.counter_new(0, 0), at = raw.put(image);
  wasm.hll_counter_join(counter, at, image.length);
  wasm.hll_counter_join_counter(other, counter);
  wasm.hll_counter_estimate(other, raw.report);
  for (const it of [counter, other]) wasm.counter_free(it);
  wasm.free(at);
  greatest = Math.max(greatest, used());
}
console.log(`${greatest} bytes of the stack were used, of ${STACK}`);
console.log(greatest < MOST && greatest > 1000 ? "1 passed, 0 failed" : "0 passed, 1 failed");
process.exit(greatest < MOST ? 0 : 1);
