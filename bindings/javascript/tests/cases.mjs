// SPDX-License-Identifier: Apache-2.0
// Compares the module with what the native library said of the same images: cases.mjs MODULE CASES (native_cases.py)
import fs from "node:fs";
import { open } from "./raw.mjs";

const raw = await open(process.argv[2]), data = fs.readFileSync(process.argv[3]), used = raw.wasm.in_use();
const begun = performance.now(), statuses = new Map();
let at = 0, same = 0, other = 0;

const number = () => data.readUInt32LE((at += 4) - 4);
const bytes = (n) => data.subarray((at += n) - n, at);

/** Makes a call by its number. The last argument is room for what it writes. */
function call(kind, one, two, a, b, room) {
  switch (kind) {
    case 0: return raw.check(one);
    case 1: return raw.info(one);
    case 2: return raw.histogram(one);
    case 3: return raw.estimate(one);
    case 4: return raw.convert(one, a, room);
    case 5: return raw.fold(one, a, room);
    case 6: return raw.merge(one, two, a, b, room);
    case 7: return raw.add(one, two, Array.from({ length: a }, (_, i) => 8 * (i + 1)), room);
    case 8: return raw.agree(one, two);
    case 9: return raw.sizeOf(one);
    case 10: return raw.setFields(one, room);
    case 11: return raw.clearFields(one, room);
    case 12: return raw.hip(one);
  }
  throw new Error(`case ${kind}`);
}

/** Returns what a call wrote: its result, or the number of the image that was rejected. */
function wrote(kind, found) {
  if (found.status === 0) return Buffer.from(found.bytes);
  if ((kind === 6 || kind === 8) && found.status <= 11) return Buffer.from(Uint32Array.of(found.failed).buffer);
  return Buffer.alloc(0);
}

while (at < data.length) {
  const [kind] = bytes(1), a = number(), b = number(), oneLength = number(), twoLength = number(), [status] = bytes(1), length = number();
  const one = bytes(oneLength), two = bytes(twoLength), wanted = bytes(length);
  const found = call(kind, one, two, a, b, Math.max(200000, length + 64)), got = wrote(kind, found);
  if (found.status === status && got.equals(wanted)) same++;
  else if (other++ < 10) console.log("differs:", kind, a, b, "status", found.status, "for", status, one.toString("hex").slice(0, 120), got.toString("hex").slice(0, 80), wanted.toString("hex").slice(0, 80));
  statuses.set(status, (statuses.get(status) ?? 0) + 1);
}
if (raw.wasm.in_use() !== used) {
  console.log(`${raw.wasm.in_use() - used} bytes were not freed`);
  other++;
}
console.log([...statuses].sort((x, y) => x[0] - y[0]).map(([status, n]) => `${status}: ${n}`).join(", "));
console.log(`${((performance.now() - begun) / 1000).toFixed(1)} s`);
console.log(`cases: ${same} passed, ${other} failed`);
process.exit(other || same < 1000 ? 1 : 0);
