// SPDX-License-Identifier: Apache-2.0
// Uses each call, for tsc, as an ES module and as CommonJS. Lines after @ts-expect-error have to be rejected.
import { Estimation, Head, HllError, Info, Module, REASONS, Real, Reason, Registers, Sketch, Source, TrapError, Union, Width, agree, couponOf, fault, headOf, histogramOf, hipOf, infoOf, isSmall, load, sizeOf, version } from "hll-sketches";
import { HllError as SameError, MESSAGES, Sketch as SketchOfLoad, load as loadFrom } from "hll-sketches/load";

const sketch: Sketch = new Sketch(12, 4).add("a").add(1).add(1n).add(true).add(new Real(7)).add(new Uint8Array(3)).add(null).addMany(["a", 1, undefined]).addMany(new Float64Array(3)).addMany(new Set([1n]));
const union: Union = new Union({ lgMaxK: 12, width: 6 }).add(sketch).add(sketch.toBytes()).add(new ArrayBuffer(8)).add(new Registers(12));
const bounded: Union = new Union(12).add(Sketch.fromBase64(sketch.toBase64(4)));
const registers: Registers = new Registers(new Uint8Array(16)).add("a").addMany([1, 2]).merge(sketch).merge(union).fold(4);
const found: Estimation = union.estimation(), bounds: [number, number] = sketch.merge(union, 12).bounds(3);
const info: Info = infoOf(sketch.toBytes(8)), width: Width = info.width, why: Reason | null = fault(union.toBytes()), hip: Estimation | null = hipOf(sketch.copy().toBytes());
const head: Head = headOf(sketch.toBytes());
const numbers: number[] = [sketch.lgK, head.size, head.width, union.lgK, found.estimate, bounds[0], couponOf("a"), sizeOf(union.toSketch().toBytes()), ...histogramOf(registers.toBytes()), ...registers.histogram(), registers.array.length, width];
const truths: boolean[] = [isSmall(union.toBytes(), { maxLgK: 14 }), agree(union.toBytes(), sketch.toBytes()), sketch.isEmpty, union.isEmpty];
const words: string[] = [version, bounded.toJSON(), sketch.toJSON(), registers.toJSON(), union.toBase64(8), registers.toBase64(6), sketch.stage, ...REASONS, ...MESSAGES, why ?? "", String(hip)];
const source: Source = sketch.toBytes(), other: Promise<Module>[] = [load(), load(source), loadFrom(new ArrayBuffer(8)), loadFrom(Promise.resolve(source))];
const sketchOf = (module: Module): SketchOfLoad => new module.Sketch(12).add("a"), same = (error: HllError): SameError => error;
try {
  Sketch.fromBytes(new Uint8Array(0));
} catch (it) {
  if (it instanceof HllError) words.push(it.reason, String(it.lgKs?.[0]));
  if (it instanceof TrapError) words.push(it.message);
}
sketch.free();
union.free();
// @ts-expect-error
new Sketch(12, 5);
// @ts-expect-error
sketch.add({});
// @ts-expect-error
union.add("0201");
// @ts-expect-error
sketch.bounds(4);
// @ts-expect-error
sketch.lgK = 3;
// @ts-expect-error
new Union({ lgmaxk: 12 });
// @ts-expect-error
load("hll.wasm");
// @ts-expect-error
loadFrom();
export { numbers, truths, words, other, sketchOf, same };
