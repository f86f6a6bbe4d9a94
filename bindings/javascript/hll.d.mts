// SPDX-License-Identifier: Apache-2.0

/** A word for a status of a call: why bytes are not an image ("truncated" to "register"), or another error. */
// scripts/calls.py writes what follows, from bindings/c/hll.h
export type Reason =
  "ok" | "truncated" | "family" | "version" | "lgk" | "width" | "stage" | "preamble" | "lgarr" | "count" | "coupon" |
  "register" | "argument" | "memory" | "buffer" | "coarser" | "other_lg_k" | "trailing" | "state";
// end of what scripts/calls.py writes

/** The words of the statuses, from 0, and a sentence for each. */
export const REASONS: readonly Reason[];
export const MESSAGES: readonly string[];

/** Bytes of an image. They are read, and never changed. */
export type Bytes = Uint8Array | ArrayBuffer | ArrayBufferView;
/** The bits of a register in an image. The width changes the size of images, and nothing else. */
export type Width = 4 | 6 | 8;
/** The form of an image: coupons in a list or a set, or registers. */
export type Stage = "list" | "set" | "registers";

/**
 * What can be counted. JavaScript has one type for numbers, so one rule decides: a number that is a safe integer counts as an
 * integer, and every other number as a real number.
 *
 * A string counts by its UTF-8, and bytes count by themselves. A safe integer, a bigint from -2^63 to 2^64 - 1 and a boolean count
 * by the eight bytes of the integer. Every other number, and a Real, counts by the eight bytes of its binary64. So 7 and 7n are one
 * value, and "7" and new Real(7) are two others.
 */
export type Value = string | number | bigint | boolean | Real | Bytes;

/** A number that counts as a real number, also if it is a whole number. */
export class Real {
  constructor(number: number);
  readonly number: number;
}

/** Bytes or an argument that are rejected, or an allocation that failed. What the call was to change is unchanged. */
export class HllError extends Error {
  readonly status: number;
  readonly reason: Reason;
  /** The two lg_k that differ, if the reason is "other_lg_k" or "coarser". */
  readonly lgKs?: [number, number];
}

/** Thrown by every call after the module trapped, by a bug or a full stack: its sketches are lost. load() returns another module. */
export class TrapError extends Error {}

/** An estimate with its error. */
export interface Estimation {
  /** The estimated number of distinct values; Infinity if every register is 63. */
  estimate: number;
  relativeStandardError: number;
  /**
   * The bounds at 1, 2 and 3 standard deviations. The number of distinct values is between them in at least about 68, 95 and 99.7 of
   * 100 cases (docs/NUMBERS.md, "Estimates").
   */
  lower: [number, number, number];
  upper: [number, number, number];
}

/** What the header of an image and the counts after it say. */
export interface Head {
  /** The size of the image in bytes: 0 if there is a fault. */
  size: number;
  /** The number of coupons, or of the exceptions of 4-bit registers: 0 if there is a fault. */
  count: number;
  /** 4 to 21. If the header has a fault, it is 0, as are the width, the flags and the minimum, and the stage is "list". */
  lgK: number;
  width: Width | 0;
  stage: Stage;
  /** 4 for empty, 8 for compact, 16 for out of order. */
  flags: number;
  /** What is added to each nibble of 4-bit registers. */
  minimum: number;
  /** The first check of the header and the counts that fails. */
  fault: Exclude<Reason, "ok"> | null;
}

/** What an image says about its sketch. */
export interface Info {
  lgK: number;
  width: Width;
  stage: Stage;
  isEmpty: boolean;
  /** Whether registers were merged, so there is no HIP estimate. */
  outOfOrder: boolean;
  /** The number of coupons of a list or a set. */
  coupons: number;
  /** Of registers: how many are 0, and the three estimator fields. */
  zeros: number;
  hip: number;
  kxq0: number;
  kxq1: number;
}

/** A sketch: it counts distinct values. Its memory is freed when it is collected. */
export class Sketch {
  /**
   * Makes an empty sketch with 2^lgK registers. lgK is 4 to 21, by default 12, where the standard error is 1.6 %. The width is the
   * default of toBytes, by default 8. Throws HllError if an argument is out of range.
   */
  constructor(lgK?: number, width?: Width);
  /** Reads an image, which is checked whole. Throws HllError if the bytes are not an image, or if other bytes follow it (`trailing`). */
  static fromBytes(image: Bytes): Sketch;
  /**
   * Reads what toBase64 returned. Throws HllError if the string is not base64 in the standard alphabet, if its bytes are not an
   * image, or if bytes follow the image.
   */
  static fromBase64(text: string): Sketch;
  /**
   * Adds one value; null and undefined are skipped. A number that is a safe integer counts as an integer, and every other number as
   * a real number (Value). Throws TypeError for other types and for a string with half a surrogate pair, and RangeError for a bigint
   * outside -2^63 to 2^64 - 1.
   */
  add(value: Value | null | undefined): this;
  /**
   * Adds each value of an iterable, or each number of a typed array: of Float64Array and Float32Array as real numbers, of others as
   * integers. If a value throws, the values before it are added.
   */
  addMany(values: Iterable<Value | null | undefined> | ArrayBufferView): this;
  /**
   * Merges a sketch, registers or an image into this sketch. Without lgMaxK both need one lg_k, unless one is empty; with it the
   * result has the smallest of lgMaxK and both lg_k. Throws HllError: "other_lg_k", or why the bytes are not an image.
   */
  merge(other: Sketch | Union | Registers | Bytes, lgMaxK?: number): this;
  estimate(): number;
  estimation(): Estimation;
  /** Returns the lower and the upper bound at 1, 2 (the default) or 3 standard deviations. */
  bounds(deviations?: 1 | 2 | 3): [number, number];
  /** Returns the image, with the fields from which other libraries estimate. */
  toBytes(width?: Width): Uint8Array;
  /** Returns the image in base64, with padding. */
  toBase64(width?: Width): string;
  /**
   * Returns toBase64(), for JSON.stringify. structuredClone and postMessage throw DataCloneError, since they can't copy a sketch: send
   * toBytes(). Unions and Registers do the same.
   */
  toJSON(): string;
  readonly lgK: number;
  readonly width: Width;
  readonly stage: Stage;
  readonly isEmpty: boolean;
  /** Returns a copy, independent of this sketch. */
  copy(): Sketch;
  /** Frees the memory now, and not when the object is collected. A sketch that was freed throws TypeError. */
  free(): void;
}

/** A union of sketches, which are added one at a time. Its memory is freed when it is collected. */
export class Union {
  /**
   * Makes an empty union. With lgMaxK (4 to 21; a number is lgMaxK), sketches of every lg_k are merged, and the union has the smallest
   * of lgMaxK and the lg_k of sketches with registers. Without it all sketches that are not empty need one lg_k. Without a width the
   * union has the width of the sketches, or 8 if their widths differ. Until something is added it is an empty sketch of lgMaxK, or of
   * lg_k 12. Throws TypeError for another option.
   */
  constructor(options?: number | { lgMaxK?: number; width?: Width });
  /** Merges a sketch, registers or an image. Throws HllError: "other_lg_k", or why the bytes are not an image. */
  add(other: Sketch | Union | Registers | Bytes): this;
  estimate(): number;
  estimation(): Estimation;
  bounds(deviations?: 1 | 2 | 3): [number, number];
  toBytes(width?: Width): Uint8Array;
  toBase64(width?: Width): string;
  toJSON(): string;
  /** Returns the union as a sketch, which is a copy. */
  toSketch(): Sketch;
  readonly lgK: number;
  readonly width: Width;
  readonly isEmpty: boolean;
  free(): void;
}

/**
 * Registers in a typed array of the program's, one byte for each, in constant memory. Each call copies them into the module and
 * back.
 */
export class Registers {
  /** Makes registers that are all 0, of an lg_k of 4 to 21 (12), or uses an array of 2^4 to 2^21 bytes. */
  constructor(of?: number | Uint8Array);
  /** The registers: the array that was passed, or the array that was made. */
  readonly array: Uint8Array;
  readonly lgK: number;
  add(value: Value | null | undefined): this;
  addMany(values: Iterable<Value | null | undefined> | ArrayBufferView): this;
  /**
   * Takes the maximum of these registers and the registers of the other, folded to this lg_k. Throws HllError
   * "coarser" if the other has fewer registers (fold these first), or why the bytes are not an image.
   */
  merge(other: Sketch | Union | Registers | Bytes): this;
  /** Returns new registers, folded to a smaller lg_k (or the same). */
  fold(lgK: number): Registers;
  /** Returns how many registers have each value from 0 to 63. */
  histogram(): number[];
  estimate(): number;
  estimation(): Estimation;
  bounds(deviations?: 1 | 2 | 3): [number, number];
  /** Returns an image of the registers. */
  toBytes(width?: Width): Uint8Array;
  toBase64(width?: Width): string;
  toJSON(): string;
}

/** Returns why bytes are not one image, or null if they are. */
export function fault(image: Bytes): Exclude<Reason, "ok"> | null;
/** Returns what the header of an image and its counts say, of at least its first 40 bytes. The rest is neither needed nor checked. */
export function headOf(image: Bytes): Head;
/**
 * Returns whether an untrusted image is quick to read, or to reject: it has at most 8,192 bytes, and its lg_k is at most 12 or its
 * header has a fault. Throws TypeError for another limit.
 */
export function isSmall(image: Bytes, limits?: { maxLgK?: number; maxBytes?: number }): boolean;
/** Returns the size of the image that the bytes begin with. Throws HllError if they are not an image. */
export function sizeOf(image: Bytes): number;
/** Returns what an image says. Throws HllError if the bytes are not an image. */
export function infoOf(image: Bytes): Info;
/** Returns how many registers (or coupons) have each value from 0 to 63. Throws HllError if the bytes are not an image. */
export function histogramOf(image: Bytes): number[];
/** Returns the HIP estimate that the writer of the image kept in it, or null. Throws HllError if the bytes are not an image. */
export function hipOf(image: Bytes): Estimation | null;
/** Returns whether two images have the same registers at the smaller lg_k. Throws HllError if one is not an image. */
export function agree(left: Bytes, right: Bytes): boolean;
/** Returns the raw coupon of a value, a number of 32 bits. */
export function couponOf(value: Value): number;
/** The version of the library. */
export const version: string;

/** The classes and functions of this module, over an instance of their own. */
export interface Module {
  Sketch: typeof Sketch;
  Union: typeof Union;
  Registers: typeof Registers;
  fault: typeof fault;
  headOf: typeof headOf;
  isSmall: typeof isSmall;
  sizeOf: typeof sizeOf;
  infoOf: typeof infoOf;
  histogramOf: typeof histogramOf;
  hipOf: typeof hipOf;
  agree: typeof agree;
  couponOf: typeof couponOf;
  version: string;
}

/**
 * hll.wasm: its bytes, a WebAssembly.Module, the Response of a fetch, or a promise of one of them. The last three are `object` here,
 * since TypeScript knows their types only where its library "dom" is used.
 */
export type Source = Bytes | object;

/**
 * Returns the classes and functions over a new instance, with a memory of its own: after a TrapError, or to free all at once. Without a
 * source it is another instance of the module that this package has. Throws TypeError for what can't be a source, and Error if a
 * Response has a status of failure, or if the source is not hll.wasm of this version.
 */
export function load(source?: Source): Promise<Module>;
