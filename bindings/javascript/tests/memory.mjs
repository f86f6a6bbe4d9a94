// SPDX-License-Identifier: Apache-2.0
// Each allocation of each call fails in turn: the status is 13, nothing else changes, and all memory is freed: memory.mjs MODULE
import { open } from "./raw.mjs";
const raw = await open(process.argv[2]), room = 40 + (5 << 14);
let passed = 0, failed = 0, failures = 0;
const check = (holds, ...what) => { if (holds) passed++; else if (failed++ < 20) console.log("failed:", ...what); };
const eights = (n, from = 0) => new Uint8Array(BigUint64Array.from({ length: n }, (_, i) => BigInt(from + i)).buffer);
const image = (lgK, width, n, from = 0) => Buffer.from(raw.add(Buffer.from(raw.fresh(lgK, width).bytes), eights(n, from), Array.from({ length: n }, (_, i) => 8 * (i + 1)), room).bytes);
const images = [image(12, 8, 0), image(12, 8, 5), image(12, 8, 300), image(12, 4, 300), image(12, 8, 9000), image(12, 6, 9000), image(12, 4, 9000), image(8, 4, 100000), image(5, 8, 20)];
// 4-bit registers with exceptions
images.push(Buffer.from(raw.coupon(raw.coupon(images[6], 5, 60, room).bytes, 9, 63, room).bytes));
const calls = {};
for (const [i, one] of images.entries()) {
  for (const name of ["check", "info", "histogram", "estimate", "sizeOf"]) calls[`${name} ${i}`] = () => raw[name](one);
  calls[`convert ${i}`] = () => raw.convert(one, 4, room);
  calls[`fold ${i}`] = () => raw.fold(one, 4, room);
  calls[`set ${i}`] = () => raw.setFields(one, room);
  calls[`add ${i}`] = () => raw.add(one, eights(100, 77), Array.from({ length: 100 }, (_, j) => 8 * (j + 1)), room);
  for (const [j, other] of images.entries()) {
    calls[`merge ${i} ${j}`] = () => raw.merge(one, other, 12, 8, room);
    calls[`agree ${i} ${j}`] = () => raw.agree(one, other);
  }
  calls[`union ${i}`] = () => raw.union([one, images[4], one], 14, 4, room);
}
const wasm = raw.wasm, real = { ...wasm };
for (const [name, call] of Object.entries(calls)) {
  const wanted = call(), used = wasm.in_use();
  for (let n = 1; ; n++) {
    // The test's own allocations come first: the failure is set right before the call.
    raw.wasm = new Proxy(real, { get: (_, key) => (String(key).startsWith("hll_") ? (...args) => { wasm.fail_at(n); const status = real[key](...args); wasm.fail_at(0); return status; } : real[key]) });
    const found = call();
    raw.wasm = wasm;
    check(wasm.in_use() === used, name, n, "memory is freed");
    if (found.status === 0) { check(Buffer.from(found.bytes).equals(Buffer.from(wanted.bytes)), name, "the result"); break; }
    check(found.status === 13, name, n, found.status);
    failures++;
    if (n > 500) { check(false, name, "no end"); break; }
  }
}
// The memory is really full.
const pages = wasm.memory.buffer.byteLength >> 16;
wasm.limit(pages);
const blocks = [];
for (let size = 1 << 20; size >= 16; size >>= 1) for (let at; (at = wasm.alloc(size)) !== 0;) blocks.push(at);
check(wasm.memory.buffer.byteLength >> 16 === pages, "the memory did not grow");
blocks.reverse().forEach((at) => wasm.free(at));

// Free neighbours are one block: eight blocks that were freed in any order make room for one of them all.
for (const order of [[0, 1, 2, 3, 4, 5, 6, 7], [7, 6, 5, 4, 3, 2, 1, 0], [1, 3, 5, 7, 0, 2, 4, 6]]) {
  wasm.limit(32768);
  const SIZE = 1 << 20, eight = Array.from({ length: 8 }, () => wasm.alloc(SIZE));
  check(eight.every((at, i) => i === 0 || at === eight[i - 1] + SIZE + 16), "the blocks follow one another", eight);
  for (const i of order) wasm.free(eight[i]);
  wasm.limit(wasm.memory.buffer.byteLength >> 16);
  const whole = wasm.alloc(8 * (SIZE + 16) - 16);
  check(whole !== 0, "free neighbours are joined", order);
  wasm.free(whole);
}

// The engine has no more memory: 4 GiB are the most.
wasm.limit(200000);
const most = [wasm.alloc(0x7fff0000), wasm.alloc(0x7fff0000)];
check(most[1] === 0, "more than 4 GiB", most);
for (const at of most) wasm.free(at);
wasm.limit(32768);
check(raw.estimate(images[9]).status === 0, "a call afterwards");
console.log(`${Object.keys(calls).length} calls, ${failures} allocations failed`);
console.log(`memory: ${passed} passed, ${failed} failed`);
process.exit(failed || failures < 300 ? 1 : 0);
