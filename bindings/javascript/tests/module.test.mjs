// SPDX-License-Identifier: Apache-2.0
// Tests the classes of the package in build/hll-sketches: node --test-reporter=tap --expose-gc module.test.mjs EXPECTED.json
import assert from "node:assert/strict";
import fs from "node:fs";
import test from "node:test";
import { runInNewContext } from "node:vm";
import { make } from "../build/hll-sketches/core.mjs";
import { HllError, MESSAGES, REASONS, Real, TrapError, load } from "../build/hll-sketches/load.mjs";
const expected = JSON.parse(fs.readFileSync(process.argv[2]));
const wasm = fs.readFileSync(new URL("../build/hll-sketches/hll.wasm", import.meta.url));
const { Registers, Sketch, Union, agree, couponOf, fault, headOf, histogramOf, hipOf, infoOf, isSmall, sizeOf, version } = await load(wasm);
const hex = (bytes) => Buffer.from(bytes).toString("hex"), of = (text) => new Uint8Array(Buffer.from(text, "hex"));
const one = (value) => hex(new Sketch(12).add(value).toBytes());
const rejects = (reason) => (why) => why instanceof HllError && why.reason === reason;

test("values that the cases of tests/behaviour can't write", () => {
  const nans = new Float64Array(BigUint64Array.of(0x7ff8000000000001n, 0xfff8000000000000n, 0x7ff0000000000001n).buffer), wanted = one(NaN);
  assert.equal(hex(new Sketch().addMany(nans).toBytes()), wanted);
  for (const nan of nans) assert.equal(one(nan), wanted);
  for (const value of [0, -0, 0.5, -1.5, 7, 1e300, 5e-324, Infinity, -Infinity, NaN]) assert.equal(hex(new Sketch().addMany(Float64Array.of(value)).toBytes()), one(new Real(value)));
  assert.equal(one("x".repeat(100000)), expected.long);
});

test("many values", () => {
  for (const [lgK, width, n, image] of expected.many) {
    const values = Array.from({ length: n }, (_, i) => `v${i}`);
    assert.equal(hex(new Sketch(lgK, width).addMany(values).toBytes()), image, `${lgK} ${width} ${n}`);
    if (n <= 5000) { const s = new Sketch(lgK, width); for (const v of values) s.add(v); assert.equal(hex(s.toBytes()), image); }
  }
  const ints = Array.from({ length: 10000 }, (_, i) => i - 5000);
  for (const values of [ints, Int32Array.from(ints), Int16Array.from(ints), BigInt64Array.from(ints, BigInt), new Set(ints), ints.map(BigInt)]) assert.equal(hex(new Sketch().addMany(values).toBytes()), expected.ints);
  assert.equal(hex(new Sketch().addMany(Float64Array.from({ length: 5000 }, (_, i) => i / 8)).toBytes()), expected.eighths);
  assert.equal(hex(new Sketch().addMany(Float32Array.from({ length: 5000 }, (_, i) => i / 8)).toBytes()), expected.eighths);
  assert.deepEqual(new Sketch().addMany(Uint32Array.of(0xffffffff)).toBytes(), new Sketch().add(0xffffffff).toBytes());
  for (const [array, value] of [[Int8Array.of(-1), -1], [Uint8ClampedArray.of(255), 255], [Uint8Array.of(7), 7], [Int16Array.of(-300), -300], [BigUint64Array.of(2n ** 64n - 1n), -1], [Float32Array.of(7), new Real(7)], [new Int32Array(0), null]])
    assert.deepEqual(new Sketch().addMany(array).toBytes(), new Sketch().add(value).toBytes());
  assert.deepEqual(new Sketch().addMany(["x".repeat(70000), "y", "é".repeat(40000), null, undefined]).toBytes(), new Sketch().add("y").add("é".repeat(40000)).add("x".repeat(70000)).toBytes());
});

test("long strings and bytes among many values", () => {
  const values = ["x".repeat(30000), new Uint8Array(20000).fill(1), "y", "z".repeat(30000), new Uint8Array(65536).fill(2), "w".repeat(65536), "é".repeat(20000), new Uint8Array(65537), "end"];
  for (let first = 0; first < values.length; first++) {
    const some = [...values.slice(first), ...values.slice(0, first)], wanted = new Sketch();
    some.forEach((value) => wanted.add(value));
    assert.deepEqual(new Sketch().addMany(some).toBytes(), wanted.toBytes());
    assert.equal(wanted.estimate().toFixed(0), "9");
  }
});

test("an iterator that uses sketches itself, and one that throws", () => {
  function* values() { for (let i = 0; i < 1000; i++) { new Sketch().addMany(["other", i]); yield `v${i}`; } }
  assert.deepEqual(new Sketch().addMany(values()).toBytes(), new Sketch().addMany(Array.from({ length: 1000 }, (_, i) => `v${i}`)).toBytes());
  const s = new Sketch();
  assert.throws(() => s.addMany(["a", "b", Symbol("x"), "c"]), TypeError);
  assert.deepEqual(s.toBytes(), new Sketch().addMany(["a", "b"]).toBytes());
});

test("unions", () => {
  for (const [bound, parts, image, estimate, b1, b2, b3, lgK, width] of expected.unions) {
    const union = new Union({ lgMaxK: bound });
    parts.forEach((part) => union.add(of(part)));
    assert.equal(hex(union.toBytes()), image);
    assert.equal(union.estimate(), estimate);
    assert.deepEqual([union.bounds(1), union.bounds(2), union.bounds(3)], [b1, b2, b3]);
    assert.deepEqual([union.lgK, union.width], [lgK, width]);
    const sketch = Sketch.fromBytes(of(parts[0])).merge(Sketch.fromBytes(of(parts[1])), bound);
    assert.equal(hex(sketch.toBytes()), image);
    assert.ok(agree(image && of(image), union.toBytes()));
  }
  const a = new Sketch(12).add("a"), b = new Sketch(10).add("b"), before = hex(a.toBytes());
  assert.throws(() => a.merge(b), (why) => rejects("other_lg_k")(why) && why.lgKs[0] === 12 && why.lgKs[1] === 10);
  assert.equal(hex(a.toBytes()), before);
  assert.equal(a.merge(b, 12).lgK, 12);
  const four = new Sketch(12, 4).add("a"), eight = new Sketch(12, 8).add("b"), none = new Sketch(12, 8);
  const widths = (...parts) => [new Union(), new Union({ width: 6 })].map((union) => { parts.forEach((it) => union.add(it)); return union.width; });
  for (const [parts, width] of [[[four], 4], [[four, eight], 8], [[eight, four], 8], [[none, four], 4], [[four, none], 4], [[none], 8], [[new Sketch(12, 4)], 4]]) {
    assert.deepEqual(widths(...parts), [width, 6]);
    assert.deepEqual(widths(...parts.map((it) => it.toBytes())), [width, 6]);
  }
});

test("a union to which nothing was added is an empty sketch of lg_k 12", () => {
  const none = new Union(), empty = new Sketch().toBytes();
  assert.deepEqual([none.lgK, none.width, none.isEmpty, none.estimate(), none.toBytes(), none.toSketch().lgK], [12, 8, true, 0, empty, 12]);
  assert.deepEqual([new Union(9).lgK, new Union({ lgMaxK: 14 }).lgK, new Union({ width: 4 }).toBytes()], [9, 14, new Sketch(12, 4).toBytes()]);
  assert.throws(() => none.add(of("0201080a030c0008")), rejects("family"));
  assert.deepEqual([none.lgK, none.toBytes()], [12, empty]);
  for (const other of [none, new Union().add(none), none.toBytes()]) assert.equal(new Union().add(other).lgK, 12);
  assert.equal(none.add(none).add(new Sketch(10).addMany(["ann", "bob"])).lgK, 10);
});

test("images", () => {
  const s = new Sketch(10, 4).addMany(Array.from({ length: 3000 }, (_, i) => i)), image = s.toBytes();
  assert.equal(image.length, sizeOf(image));
  const back = Sketch.fromBytes(image);
  assert.deepEqual(back.toBytes(), image);
  assert.deepEqual([back.lgK, back.width, back.stage, back.isEmpty, back.estimate()], [10, 4, "registers", false, s.estimate()]);
  assert.equal(histogramOf(image).reduce((x, y) => x + y), 1024);
  assert.deepEqual([new Sketch().stage, new Sketch().addMany([1, 2, 3, 4, 5, 6, 7, 8]).stage], ["list", "set"]);
  assert.ok(new Sketch().isEmpty && !new Sketch().add(0).isEmpty);
  assert.equal(infoOf(image).outOfOrder, true);
  assert.equal(hipOf(image), null);
  assert.equal(fault(image), null);
  const changed = Sketch.fromBytes(image).add("new");
  assert.deepEqual(Sketch.fromBytes(image).toBytes(), image);
  assert.equal(changed.lgK, 10);
});

test("life: json", () => {
  const s = new Sketch(12).addMany(["ann", "bob"]), u = new Union().add(s), r = new Registers(12).addMany(["ann", "bob"]), text = "AgEHDAMIAgj4EWAEvyBkHA==";
  assert.equal(JSON.stringify({ s, u }), `{"s":"${text}","u":"${text}"}`);
  assert.equal(hex(Sketch.fromBase64(JSON.parse(JSON.stringify([r]))[0]).toBytes()), hex(r.toBytes()));
  for (const lgK of [4, 12, 21]) for (const width of [4, 6, 8]) for (const n of [0, 1, 2, 300, 60000]) {
    const one = new Sketch(lgK, width).addMany(Int32Array.from({ length: n }, (_, i) => i)), image = one.toBytes();
    assert.equal(one.toBase64(), Buffer.from(image).toString("base64"));
    assert.deepEqual(Sketch.fromBase64(one.toBase64()).toBytes(), image);
    assert.deepEqual(Sketch.fromBase64(one.toBase64(8)).toBytes(), one.toBytes(8));
  }
  for (const [bad, reason] of [["ann!", "argument"], [text.slice(0, -4), "truncated"]])
    assert.throws(() => Sketch.fromBase64(bad), rejects(reason), bad);
  for (const bad of [null, undefined, s, s.toBytes()]) assert.throws(() => Sketch.fromBase64(bad), TypeError);
});

test("life: language", () => {
  const s = new Sketch(12).add("ann");
  for (const it of [s, new Union().add(s), new Registers(12), Sketch.fromBase64(s.toBase64()), { deep: [s] }])
    for (const copy of [structuredClone, (value) => new MessageChannel().port1.postMessage(value)]) assert.throws(() => copy(it), { name: "DataCloneError" });
  assert.throws(() => { s.toJSON = null; }, TypeError);
});

test("words and sentences of statuses are those of hll.h", () => {
  const header = fs.readFileSync(new URL("../../c/hll.h", import.meta.url), "utf8");
  const strings = (name) => [...header.match(new RegExp(`${name}\\[\\] = \\{(.*?)\\};`, "s"))[1].matchAll(/"([^"]*)"/g)].map((it) => it[1]);
  assert.deepEqual(REASONS, strings("words"));
  assert.deepEqual(MESSAGES, strings("sentences"));
});

test("images of the original crate", () => {
  const [list, ...registers] = fs.readFileSync(new URL("./original.txt", import.meta.url), "latin1").split("\n").filter((line) => /^[0-9a-f]+$/.test(line)).map(of);
  assert.ok(agree(list, new Sketch(12).addMany([0, 1, 2, 3, 4]).toBytes()));
  assert.equal(registers.length, 3);
  for (const image of registers) {
    const own = new Sketch(10).addMany(Array.from({ length: 1000 }, (_, i) => i)), read = Sketch.fromBytes(image);
    assert.ok(agree(image, own.toBytes()));
    assert.equal(read.estimate(), own.estimate());
    assert.equal(Math.round(hipOf(image).estimate), 1031);
    assert.equal(hipOf(read.toBytes()).estimate, hipOf(image).estimate);
    assert.equal(hipOf(read.add("new").toBytes()), null);
  }
});

test("arguments", () => {
  for (const lgK of [4.5, "12", NaN]) assert.throws(() => new Sketch(lgK), rejects("argument"));
  assert.throws(() => new Sketch(12, "8"), rejects("argument"));
  assert.throws(() => new Sketch().add("\ud800"), TypeError);
  assert.throws(() => new Sketch().add({}), TypeError);
  assert.throws(() => new Sketch().addMany("ann"), TypeError);
  for (const width of [0, 5, "8"]) assert.throws(() => new Sketch().toBytes(width), rejects("argument"));
  assert.throws(() => new Sketch().bounds(4), rejects("argument"));
  assert.throws(() => new Sketch().add(2n ** 64n), RangeError);
  assert.throws(() => Sketch.fromBytes("0201070a030c0008"), TypeError);
  for (const options of [3, 22, NaN, { lgMaxK: 3 }]) assert.throws(() => new Union(options), rejects("argument"));
  const fine = new Sketch(14).addMany(Array.from({ length: 9000 }, (_, i) => i));
  assert.deepEqual(new Union(12).add(fine).toBytes(), new Union({ lgMaxK: 12 }).add(fine).toBytes());
  assert.throws(() => new Union({ lgmaxk: 12 }), new TypeError("the option lgmaxk is unknown; the options are lgMaxK and width"));
  assert.throws(() => isSmall(fine.toBytes(), { maxlgk: 14 }), new TypeError("the option maxlgk is unknown; the options are maxLgK and maxBytes"));
  for (const options of ["12", 12n, true, null, fine, [12]]) assert.throws(() => new Union(options), TypeError);
  assert.throws(() => new Sketch(12).merge(new Sketch(12).add(1), 3), rejects("argument"));
  assert.equal(version, "0.2.0");
  assert.equal(REASONS.length, 19);
});

test("a memory that grows during a call", async () => {
  // A set whose coupons do not ascend: a check of it makes a table, in a call after the bytes were placed. Views of the memory
  // as it was are then detached.
  const many = new Sketch(21).addMany(Int32Array.from({ length: 150000 }, (_, i) => i)).toBytes(), coupons = new Uint32Array(many.buffer.slice(12));
  many.set(new Uint8Array(coupons.reverse().buffer), 12);
  for (const call of ["fault", "sizeOf", "infoOf", "histogramOf", "hipOf"]) {
    const { instance } = await WebAssembly.instantiate(wasm);
    const own = make(instance.exports), s = new own.Sketch(), before = instance.exports.memory.buffer.byteLength;
    own[call](many);
    assert.ok(instance.exports.memory.buffer.byteLength > before + (1 << 20));
    assert.equal(hex(s.add("ann").toBytes()), one("ann"));
    own[call](many);
    assert.equal(own.couponOf("ann"), 0x046011f8);
    assert.equal(hex(new own.Sketch().addMany(Int32Array.of(7)).toBytes()), one(7));
  }
});

test("memory comes back when sketches are collected", { skip: typeof gc !== "function" }, async () => {
  const { instance } = await WebAssembly.instantiate(wasm);
  const own = make(instance.exports), before = instance.exports.in_use();
  (() => { for (let i = 0; i < 3000; i++) new own.Sketch(12).addMany(Int32Array.from({ length: 2000 }, (_, j) => i + j)).add("more"); })();
  for (let i = 0; i < 50 && instance.exports.in_use() > before; i++) { gc(); await new Promise((done) => setTimeout(done, 10)); }
  assert.equal(instance.exports.in_use(), before);
  const s = new own.Sketch(12).add(1);
  s.free();
  assert.equal(instance.exports.in_use(), before);
});

test("lengths that lie, or that change while they are read", () => {
  const others = Array.from({ length: 400 }, (_, i) => new Sketch().addMany([i, "a", "b"])), images = others.map((it) => hex(it.toBytes()));
  const image = new Sketch().addMany(["ann", "bob"]).toBytes(), real = Float64Array.of(1.5, 2.5), wanted = hex(image);
  for (const lie of [0, 3, 2 ** 31, -1, NaN]) {
    const lying = (array) => Object.defineProperties(array, Object.fromEntries(["length", "byteLength"].map((name) => [name, { get: () => lie }])));
    assert.equal(hex(Sketch.fromBytes(lying(image.slice())).toBytes()), wanted);
    assert.equal(hex(new Union().add(lying(image.slice())).toBytes()), wanted);
    assert.equal(hex(new Sketch().add(lying(new TextEncoder().encode("ann"))).add("bob").toBytes()), wanted);
    assert.equal(new Sketch().addMany(lying(real.slice())).estimate(), new Sketch().addMany(real).estimate());
    assert.equal(new Registers(lying(new Uint8Array(16).fill(1))).lgK, 4);
    assert.equal(fault(lying(new DataView(image.buffer.slice()))), null);
  }
  // Each look at the length lets the buffer grow, as another thread may.
  const shared = (bytes) => {
    const buffer = new SharedArrayBuffer(bytes.length, { maxByteLength: 1 << 20 }), array = new Uint8Array(buffer);
    array.set(bytes);
    const grow = () => {
      const { byteLength } = buffer;
      if (byteLength < 1 << 20) buffer.grow(1 << 20);
      return byteLength;
    };
    return Object.defineProperties(array, { length: { get: grow }, byteLength: { get: grow } });
  };
  for (const call of [(it) => Sketch.fromBytes(it), (it) => new Union().add(it), (it) => new Sketch().add(it), (it) => new Sketch().addMany([it, "c"]), fault])
    call(shared(image));
  assert.deepEqual(others.map((it) => hex(it.toBytes())), images);
});

test("small calls allocate nothing here", async () => {
  const { instance } = await WebAssembly.instantiate(wasm);
  let count = 0;
  const own = make({ ...instance.exports, alloc: (size) => { count++; return instance.exports.alloc(size); } });
  const image = new own.Sketch().addMany(Int32Array.from({ length: 9000 }, (_, i) => i)).toBytes(), registers = new own.Registers(), before = count;
  for (const call of [(s) => s.add("ann"), (s) => s.addMany(["a", 1, 2.5, new Uint8Array(3)]), (s) => s.toBytes(), (s) => s.merge(image), (s) => s.estimate(), (s) => s.add(new Uint8Array(9000)), (s) => s.addMany([new Uint8Array(9000)])])
    call(new own.Sketch());
  for (const call of [own.fault, own.sizeOf, own.infoOf, own.headOf, own.histogramOf, own.hipOf, (it) => own.agree(it, it), own.Sketch.fromBytes, (it) => registers.merge(it), () => registers.toBytes()]) call(image);
  assert.equal(count, before);
});

test("sketches that are collected are freed some at a time", { skip: typeof gc !== "function" }, async () => {
  const { instance } = await WebAssembly.instantiate(wasm), turn = () => new Promise((done) => setImmediate(done));
  let count = 0, most = 0, all = 0;
  const own = make({ ...instance.exports, counter_free: (at) => { count++; instance.exports.counter_free(at); } });
  (() => { for (let i = 0; i < 3000; i++) new own.Sketch(); })();
  for (let i = 0; i < 200 && all < 2900; i++) {
    gc();
    for (let j = 0; j < 10; j++) {
      await turn();
      most = Math.max(most, count);
      all += count;
      count = 0;
    }
  }
  assert.ok(all >= 2900 && most <= 512, `${all} were freed, ${most} at once`);
});

test("registers in an array of the program's", () => {
  const array = new Uint8Array(4096), registers = new Registers(array), values = Array.from({ length: 9000 }, (_, i) => `v${i}`);
  assert.equal(registers.array, array);
  registers.addMany(values.slice(0, 5000)).add("v1").add(null);
  const sketch = new Sketch(12).addMany(values.slice(0, 5000));
  assert.equal(hex(registers.toBytes()), hex(sketch.toBytes()));
  assert.deepEqual(registers.estimation(), sketch.estimation());
  assert.deepEqual(registers.histogram(), histogramOf(sketch.toBytes()));
  assert.ok(array.some((value) => value > 0));
  const other = new Sketch(12).addMany(values.slice(4000)), all = new Sketch(12).addMany(values);
  for (const it of [other, other.toBytes(4), new Union().add(other), new Registers(12).addMany(values.slice(4000))]) {
    const copy = new Registers(array.slice()).merge(it);
    assert.equal(hex(copy.toBytes()), hex(all.toBytes()));
    assert.deepEqual(copy.bounds(1), all.bounds(1));
  }
  const folded = new Registers(12).addMany(values).fold(10);
  assert.deepEqual([folded.lgK, hex(folded.toBytes(6))], [10, hex(new Sketch(10, 6).addMany(values).toBytes())]);
  assert.throws(() => new Registers(12).add(1).merge(new Sketch(10).addMany(values)), (why) => rejects("coarser")(why) && why.lgKs[0] === 12 && why.lgKs[1] === 10);
  assert.throws(() => new Registers(new Uint8Array(17)), rejects("argument"));
  assert.throws(() => new Registers(3), rejects("argument"));
  assert.throws(() => new Registers([1, 2]), TypeError);
  assert.throws(() => new Registers(new Uint8Array(16).fill(64)).estimate(), rejects("register"));
  const before = array.slice();
  assert.throws(() => registers.merge(of("0201080a030c0008")), rejects("family"));
  assert.throws(() => registers.fold(13), rejects("argument"));
  assert.deepEqual(array, before);
  assert.equal(new Union().add(registers).estimate(), registers.estimate());
});

test("random sketches: values one by one and many, sketches, images and unions, at each width", () => {
  let seed = 12345;
  const random = (n) => { seed = (Math.imul(seed, 1103515245) + 12345) >>> 0; return (seed >>> 8) % n; };
  for (let round = 0; round < 300; round++) {
    const lgK = 4 + random(9), width = [4, 6, 8][random(3)], parts = [], whole = new Sketch(lgK, width);
    for (let part = 0; part < 3; part++) {
      const n = [0, 1, 5, 16, 17, 40, 300, 3000][random(8)], values = Array.from({ length: n }, () => random(5000)), sketch = new Sketch(lgK, width);
      if (random(2)) sketch.addMany(values);
      else values.forEach((value) => sketch.add(value));
      whole.addMany(values);
      if (random(3) === 0) sketch.estimate();
      parts.push([sketch, sketch.toBytes(), Sketch.fromBytes(sketch.toBytes()), new Union({ width }).add(sketch), sketch.copy()][random(5)]);
    }
    const union = new Union({ width }), bounded = new Union({ width, lgMaxK: Math.max(4, lgK - random(3)) });
    for (const part of parts) { union.add(part); bounded.add(part); }
    assert.ok(agree(union.toBytes(), whole.toBytes()), `${round}`);
    assert.ok(whole.isEmpty || union.lgK === lgK);
    assert.ok(agree(bounded.toBytes(), whole.toBytes()));
    assert.equal(whole.isEmpty, union.isEmpty);
    assert.equal(union.toSketch().estimate(), union.estimate());
    const info = infoOf(union.toBytes());
    assert.deepEqual([info.lgK, info.width], [union.lgK, width]);
  }
});

test("an empty image that is read, and values after it", () => {
  const empty = new Sketch(9, 6).toBytes(), s = Sketch.fromBytes(empty);
  assert.deepEqual([s.lgK, s.width, s.isEmpty, s.stage, s.estimate()], [9, 6, true, "list", 0]);
  s.add("ann");
  assert.deepEqual([s.lgK, s.width, s.isEmpty], [9, 6, false]);
  assert.equal(hex(s.toBytes()), hex(new Sketch(9, 6).add("ann").toBytes()));
  assert.equal(new Union().add(empty).lgK, 9);
  assert.equal(new Sketch(9).merge(new Sketch(9)).lgK, 9);
});

test("heads, of whole images and of their first bytes", () => {
  const image = new Sketch(12, 6).addMany(Array.from({ length: 9000 }, (_, i) => i)).toBytes();
  const head = { size: image.length, count: 0, lgK: 12, width: 6, stage: "registers", flags: 16, minimum: 0, fault: null };
  assert.deepEqual([headOf(image), headOf(image.subarray(0, 40))], [head, head]);
  assert.deepEqual(headOf(image.subarray(0, 39)), { ...head, size: 0, fault: "truncated" });
  assert.deepEqual(headOf(of("02010a")), { size: 0, count: 0, lgK: 0, width: 0, stage: "list", flags: 0, minimum: 0, fault: "truncated" });
  assert.equal(headOf(of("0201060a030c0008")).fault, "family");
  const table = headOf(of("0a010704 1a000002 000000000000000000000000000000000000000000000000 0f000000 01000000".replace(/ /g, "")));
  assert.deepEqual([table.size, table.count, table.fault], [48 + 4 * 2 ** 26, 1, null]);
});

test("small images", () => {
  const image = new Sketch(12).addMany(Array.from({ length: 9000 }, (_, i) => i)).toBytes();
  assert.deepEqual([isSmall(image), isSmall(image, { maxLgK: 11 }), isSmall(image, { maxBytes: 4000 }), isSmall(of("0201"))], [true, false, false, true]);
});

test("life: zero", () => {
  for (const kind of [Sketch, Union, Registers]) for (const call of [(s) => s.add("ann"), (s) => s.estimate(), (s) => s.toBytes(), (s) => JSON.stringify(s)])
    assert.throws(() => call(Object.create(kind.prototype)), TypeError);
});

test("life: copied", () => {
  for (const n of [0, 5, 100, 5000]) for (const one of [new Sketch().addMany(Int32Array.from({ length: n }, (_, i) => i)), Sketch.fromBytes(new Sketch(12).addMany(Int32Array.from({ length: n }, (_, i) => i)).toBytes())]) {
    const image = hex(one.toBytes()), copy = one.copy();
    assert.notEqual(hex(copy.addMany(Array.from({ length: 500 }, (_, i) => `another ${i}`)).toBytes()), image);
    assert.equal(hex(one.toBytes()), image);
    const second = one.copy();
    one.free();
    assert.equal(hex(second.toBytes()), image);
  }
});

test("life: closed", () => {
  const image = new Sketch(12).addMany(Array.from({ length: 9000 }, (_, i) => i)).toBytes();
  for (const s of [new Sketch(12).add(1), Sketch.fromBytes(image), new Union().add(image)]) {
    s.free();
    s.free();
    for (const call of [() => s.add(image), () => s.estimate(), () => s.toBytes(), () => s.lgK, () => s.isEmpty, () => s.toBase64(), () => JSON.stringify([s]), () => new Union().add(s), () => new Union({ width: 8 }).add(s)])
      assert.throws(call, new TypeError("the sketch was freed"));
    if (s instanceof Sketch) for (const call of [() => s.stage, () => s.copy(), () => s.merge(image), () => s.addMany([1])]) assert.throws(call, new TypeError("the sketch was freed"));
  }
});

test("after a trap the module is not used any more, and another one is", async () => {
  const { instance } = await WebAssembly.instantiate(wasm);
  const own = make({ ...instance.exports, hll_image_check: () => instance.exports.hll_image_check(0xfffffff0, 100) });
  const s = new own.Sketch(12).add("ann");
  assert.throws(() => own.fault(s.toBytes()), (why) => why instanceof TrapError && why.cause instanceof WebAssembly.RuntimeError);
  for (const call of [() => s.estimate(), () => s.add("bob"), () => s.toBytes(), () => new own.Sketch(12), () => own.couponOf("ann"), () => new own.Registers(4).estimate()])
    assert.throws(call, TrapError);
  s.free();
  const other = await load(wasm);
  assert.equal(new other.Sketch(12).add("ann").estimate(), 1);
  assert.equal(new Sketch(12).add("ann").estimate(), 1);
});

test("sources of the module", async () => {
  const module = new WebAssembly.Module(wasm), answer = () => new Response(wasm), elsewhere = runInNewContext("new WebAssembly.Module(wasm)", { wasm });
  for (const source of [wasm, new Uint8Array(wasm).buffer, new DataView(new Uint8Array(wasm).buffer), module, elsewhere, answer(), Promise.resolve(answer()), Promise.resolve(module), new Blob([wasm])]) {
    const own = await load(source);
    assert.equal(hex(new own.Sketch().add("ann").toBytes()), one("ann"));
  }
  for (const bad of ["hll.wasm", new URL("file:///hll.wasm"), 7, {}, null, undefined])
    await assert.rejects(load(bad), new TypeError("load() takes the bytes of hll.wasm, a WebAssembly.Module or a Response, as in load(fetch(url))"));
  await assert.rejects(load(new Response("none", { status: 404 })), /^Error: hll\.wasm can't be loaded: .* has the status 404$/);
  await assert.rejects(load(new Response("<!doctype html>")), /^Error: what load\(\) was given is not hll\.wasm, or this engine can't compile it: .*magic/);
  await assert.rejects(load(new Error("the network")), TypeError);
  await assert.rejects(load(Promise.reject(new Error("the network"))), new Error("the network"));
});

test("a module of another version, and one that is another", async () => {
  const { instance } = await WebAssembly.instantiate(wasm), other = { ...instance.exports, hll_version: () => 1002003 };
  assert.throws(() => make(other), new Error("the module is hll.wasm 1.2.3; copy hll.wasm of the package hll-sketches 0.2.0"));
  await assert.rejects(load(of("0061736d01000000")), new Error("the module is not hll.wasm; copy hll.wasm of the package hll-sketches 0.2.0"));
});

test("an allocation that fails leaves a sketch as it was", async () => {
  const { instance } = await WebAssembly.instantiate(wasm), own = make(instance.exports), { fail_at: failAt, in_use: inUse } = instance.exports;
  const image = new own.Sketch(12).addMany(Array.from({ length: 9000 }, (_, i) => i)).toBytes(), set = new own.Sketch(12).addMany(Array.from({ length: 100 }, (_, i) => `x${i}`)).toBytes();
  let failures = 0;
  const starts = [() => new own.Sketch(12), () => new own.Sketch(12).addMany(["a", "b"]), () => own.Sketch.fromBytes(set), () => own.Sketch.fromBytes(image), () => new own.Sketch(12, 4).addMany(Array.from({ length: 300 }, (_, i) => i))];
  const changes = [(s) => s.add("one"), (s) => s.addMany(Array.from({ length: 400 }, (_, i) => i)), (s) => s.merge(set), (s) => s.merge(image), (s) => s.copy().free(), (s) => s.estimate(), (s) => s.toBytes()];
  for (const start of starts) for (const change of changes) {
    for (let n = 1; ; n++) {
      const s = start(), before = hex(s.toBytes());
      failAt(n);
      try {
        change(s);
        failAt(0);
        s.free();
        break;
      } catch (why) {
        failAt(0);
        assert.ok(rejects("memory")(why), String(why));
        assert.equal(hex(s.toBytes()), before);
        failures++;
        s.free();
      }
      assert.ok(n < 100);
    }
  }
  assert.ok(failures > 50, `${failures}`);
  const registers = new own.Registers(19).add("a"), before = registers.array.slice(), used = inUse();
  const large = new Sketch(19).addMany(Int32Array.from({ length: 200000 }, (_, i) => i)).toBytes();
  for (let n = 1; n < 3; n++) {
    failAt(n);
    assert.throws(() => registers.merge(large), rejects("memory"));
    failAt(0);
    assert.deepEqual(registers.array, before);
    assert.equal(inUse(), used);
  }
});
