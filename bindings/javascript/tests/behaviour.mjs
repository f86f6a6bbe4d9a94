// SPDX-License-Identifier: Apache-2.0
// Answers the cases of tests/behaviour, which cases.py writes to standard input and whose answers it compares: node behaviour.mjs PACKAGE
import { readFileSync } from "node:fs";
import { pathToFileURL } from "node:url";

const { Real, Sketch, Union, couponOf, fault, headOf, sizeOf } = await import(pathToFileURL(process.argv[2] + "/node.mjs").href);

const bytesOf = (digits) => Uint8Array.from(Buffer.from(digits, "hex"));
const hexOf = (bytes) => Buffer.from(bytes).toString("hex");
const numberOf = (text) => Number(text.replace("inf", "Infinity"));
// The forms in which a program has a value of each type.
const VALUES = {
  text: (digits) => [new TextDecoder("utf-8", { ignoreBOM: true }).decode(bytesOf(digits))],
  surrogate: (digits) => [String.fromCharCode(parseInt(digits, 16))],
  bytes: (digits) => [bytesOf(digits), bytesOf(digits).buffer],
  integer: (text) => (Number.isSafeInteger(Number(text)) ? [Number(text), BigInt(text)] : [BigInt(text)]),
  real: (text) => (Number.isSafeInteger(numberOf(text)) ? [new Real(numberOf(text))] : [numberOf(text), new Real(numberOf(text))]),
  boolean: (text) => [text === "true"],
  list: (text) => [[Number(text)]],
  missing: () => [null, undefined],
};

/** Why a call throws. Of one image the reason is enough. */
const rejected = (why, isImage) => `rejected: ${isImage ? why.reason : why.message} ${isImage || why.reason === undefined ? "" : why.reason}`.trimEnd();

/** The coupon that a sketch keeps of a value, or what became of it. */
function kept(value) {
  const one = new Sketch(), many = new Sketch();
  try {
    many.addMany([value, value]);
  } catch {}
  try {
    one.add(value);
  } catch (why) {
    return many.isEmpty ? rejected(why) : "counted among many";
  }
  const image = one.toBytes();
  if (Buffer.compare(image, many.toBytes()) !== 0) return "another among many";
  if (one.isEmpty) return "missing";
  const coupon = new DataView(image.buffer, image.byteOffset).getUint32(8, true);
  return coupon === couponOf(value) ? coupon.toString(16).padStart(8, "0") : "another coupon";
}

function made(call, isImage) {
  try {
    return hexOf(call());
  } catch (why) {
    return rejected(why, isImage);
  }
}

// What takes one whole image, each with the image that it makes.
const WHOLE = [
  (image) => Sketch.fromBytes(image).toBytes(),
  (image) => Sketch.fromBase64(Buffer.from(image).toString("base64")).toBytes(),
  (image) => new Union().add(image).toSketch().toBytes(),
  (image) => new Sketch(headOf(image).lgK || 12, headOf(image).width || 8).merge(image).toBytes(),
];

const union = (lgMaxK, width, ...images) => {
  const all = new Union({ lgMaxK: Number(lgMaxK), width: Number(width) });
  images.forEach((image) => all.add(bytesOf(image)));
  return all.toBytes();
};

const CALLS = {
  whole: (image = "") => [...WHOLE.map((way) => made(() => way(bytesOf(image)), true)), ...(fault(bytesOf(image)) ? [rejected({ reason: fault(bytesOf(image)) }, true)] : [])],
  first: (image = "") => [made(() => Sketch.fromBytes(bytesOf(image).subarray(0, sizeOf(bytesOf(image)))).toBytes(), true)],
  union: (...given) => [made(() => union(...given))],
  new: (lgK, width) => [made(() => new Sketch(Number(lgK), Number(width)).toBytes())],
  many: (...values) => [made(() => new Sketch().addMany(values.map((it) => (it === "null" ? null : it === "[]" ? [] : it))).toBytes())],
};

const lines = readFileSync(0, "utf8").trimEnd().split("\n");
for (const line of lines) {
  const [call, given] = line.split("\t");
  const answers = VALUES[call]?.(given).map(kept) ?? CALLS[call]?.(...given.split(" ").filter(Boolean)) ?? ["the call is not known"];
  console.log([...new Set(answers)].join(" or "));
}
