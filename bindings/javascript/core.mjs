// SPDX-License-Identifier: Apache-2.0
// HyperLogLog sketches over the WebAssembly module, for the files that a program imports: node.mjs, hll.cjs, hll.mjs and load.mjs.
// hll.d.mts describes each public item.

// scripts/calls.py writes what follows, from bindings/c/hll.h
const VERSION = "0.2.0";

/** A word for each status of a call. */
export const REASONS = Object.freeze([
  "ok", "truncated", "family", "version", "lgk", "width", "stage", "preamble", "lgarr", "count", "coupon", "register",
  "argument", "memory", "buffer", "coarser", "other_lg_k", "trailing", "state",
]);

/** A sentence for each status of a call. */
export const MESSAGES = Object.freeze([
  "The call did what was asked.",
  "The bytes end inside what the header asks for.",
  "The family byte is not 7.",
  "The serial version is not 1.",
  "The lg_k byte is outside 4 to 21.",
  "The width bits are 3.",
  "The stage bits are 3.",
  "The preamble size does not fit the stage.",
  "The size of a table is outside its range.",
  "A count is above its bound, or not the number of filled buckets.",
  "A coupon has the value 0 where a coupon is needed, or comes twice.",
  "A register is above 63, or nibbles and exceptions do not agree.",
  "An argument is out of its range.",
  "An allocation failed.",
  "The buffer is smaller than what is to be written.",
  "What is to be merged has fewer registers.",
  "The sketches have different lg_k, and no lg_max_k was given.",
  "Bytes follow the image.",
  "The state was written by another version of the library.",
]);
// end of what scripts/calls.py writes

const OK = 0, ARGUMENT = 12, MEMORY = 13, BUFFER = 14, COARSER = 15, OTHER_LG_K = 16, TRAILING = 17;
const STAGES = Object.freeze(["list", "set", "registers"]);
const DEFAULT_LG_K = 12;
// Of the state of a counter, which has no lists.
const IN_REGISTERS = 2;

/** What is wrong with bytes or an argument, or that an allocation failed. `reason` is a word of REASONS. */
export class HllError extends Error {
  constructor(status, more = {}) {
    super(more.message ?? MESSAGES[status] ?? "The status is unknown.");
    this.name = "HllError";
    this.status = status;
    this.reason = REASONS[status] ?? "unknown";
    if (more.lgKs) this.lgKs = more.lgKs;
  }
}

/** Says that the module trapped in an earlier call. Its memory can't be trusted any more, so every call throws this. */
export class TrapError extends Error {
  constructor(cause) {
    super("The module trapped, so its sketches are lost. Load the module again, by load().", { cause });
    this.name = "TrapError";
  }
}

/** A number that counts as a real number, also if it is a whole number: `new Real(7)`. */
export class Real {
  constructor(number) {
    this.number = Number(number);
  }
}

const encoder = new TextEncoder();
const lone = /[\ud800-\udbff](?![\udc00-\udfff])|(?<![\ud800-\udbff])[\udc00-\udfff]/;
const isWhole = typeof "".isWellFormed === "function" ? (text) => text.isWellFormed() : (text) => !lone.test(text);
const isShared = (data) => typeof SharedArrayBuffer === "function" && data instanceof SharedArrayBuffer;
const isMissing = (value) => value === null || value === undefined;
const rejected = (message) => new HllError(ARGUMENT, { message });

// The properties of views and buffers as JavaScript itself has them. An object of a program's own class can say another length, and a
// length that the program computes can change the buffer.
const propertyOf = (prototype, name) => {
  const { get } = Object.getOwnPropertyDescriptor(prototype, name);
  return (it) => get.call(it);
};
const TypedArray = Object.getPrototypeOf(Uint8Array);
const ARRAY = Object.fromEntries(["buffer", "byteOffset", "byteLength", "length"].map((name) => [name, propertyOf(TypedArray.prototype, name)]));
const DATA_VIEW = Object.fromEntries(["buffer", "byteOffset", "byteLength"].map((name) => [name, propertyOf(DataView.prototype, name)]));
const kindOf = propertyOf(TypedArray.prototype, Symbol.toStringTag);
const sizeOfBuffer = propertyOf(ArrayBuffer.prototype, "byteLength");
const sizeOfShared = typeof SharedArrayBuffer === "function" ? propertyOf(SharedArrayBuffer.prototype, "byteLength") : null;

/** Returns what a caller passes as bytes as a Uint8Array over the same bytes, whose length doesn't change if another thread lets the
 * buffer grow. */
function bytesOf(data) {
  if (data instanceof ArrayBuffer) return new Uint8Array(data, 0, sizeOfBuffer(data));
  if (isShared(data)) return new Uint8Array(data, 0, sizeOfShared(data));
  if (!ArrayBuffer.isView(data)) throw new TypeError("an image is a Uint8Array, an ArrayBuffer or a view of one");
  const read = kindOf(data) === undefined ? DATA_VIEW : ARRAY;
  return new Uint8Array(read.buffer(data), read.byteOffset(data), read.byteLength(data));
}

/** Returns a typed array over the same numbers, whose length doesn't change. */
const numbersOf = (array) => new globalThis[kindOf(array)](ARRAY.buffer(array), ARRAY.byteOffset(array), ARRAY.length(array));

/** Returns bytes as base64. */
function base64Of(bytes) {
  let text = "";
  for (let at = 0; at < bytes.length; at += 32768) text += String.fromCharCode(...bytes.subarray(at, at + 32768));
  return btoa(text);
}

/** Returns the bytes of a string of base64. */
function bytesOfBase64(text) {
  if (typeof text !== "string") throw new TypeError("base64 is a string");
  let decoded;
  try {
    decoded = atob(text);
  } catch {
    throw rejected("The string is not base64.");
  }
  const bytes = new Uint8Array(decoded.length);
  for (let at = 0; at < bytes.length; at++) bytes[at] = decoded.charCodeAt(at);
  return bytes;
}

/** Returns the options that a caller passes. Throws TypeError for an option that is not one of these keys. */
function optionsOf(given, ...keys) {
  const unknown = typeof given === "object" ? Object.keys(given).find((key) => !keys.includes(key)) : given;
  if (unknown !== undefined) throw new TypeError(`the option ${String(unknown)} is unknown; the options are ${keys.join(" and ")}`);
  return given;
}

function checkedLgK(lgK, name = "lg_k") {
  if (!Number.isInteger(lgK) || lgK < 4 || lgK > 21) throw rejected(`${name} is ${String(lgK)}; it must be an integer from 4 to 21.`);
  return lgK;
}

function checkedWidth(width) {
  if (width !== 4 && width !== 6 && width !== 8) throw rejected(`The width is ${String(width)}; it must be 4, 6 or 8.`);
  return width;
}

function checkedDeviations(deviations) {
  if (![1, 2, 3].includes(deviations)) throw rejected(`The deviations are ${String(deviations)}; they must be 1, 2 or 3.`);
  return deviations;
}

/** Returns the exports of an instance, so that after a trap, or any other exception, no call is made any more. */
function guarded(exports) {
  const state = { trap: null };
  const guard = (call) => (a, b, c, d, e, f, g, h, i, j) => {
    if (state.trap !== null) throw new TrapError(state.trap);
    try {
      return call(a, b, c, d, e, f, g, h, i, j);
    } catch (why) {
      state.trap = why;
      throw new TrapError(why);
    }
  };
  for (const [name, value] of Object.entries(exports)) state[name] = typeof value === "function" ? guard(value) : value;
  return state;
}

/** The bytes that are enough for the head of each image. */
const HEAD_BYTES = 40;

/** Returns the version of a module. Throws Error if it is not the one that this file is for: a copy of hll.wasm may be older. */
function checkedVersion(exports) {
  const number = typeof exports.hll_version === "function" ? exports.hll_version() : NaN;
  const version = [Math.floor(number / 1e6), Math.floor(number / 1e3) % 1e3, number % 1e3].join(".");
  if (version === VERSION) return version;
  throw new Error(`the module is ${Number.isNaN(number) ? "not hll.wasm" : `hll.wasm ${version}`}; copy hll.wasm of the package hll-sketches ${VERSION}`);
}

/** Returns hll.wasm compiled, of its bytes or the Response of a fetch, or as it is if it is compiled already. */
export async function compiledOf(source) {
  const given = await source;
  if (Object.prototype.toString.call(given) === "[object WebAssembly.Module]") return given;
  if (given?.ok === false) throw new Error(`hll.wasm can't be loaded: ${given.url} has the status ${given.status}`);
  const isResponse = typeof given?.arrayBuffer === "function", bytes = isResponse ? await given.arrayBuffer() : given;
  try {
    return await WebAssembly.compile(ArrayBuffer.isView(bytes) ? bytesOf(bytes) : bytes); // V8 takes no DataView
  } catch (cause) {
    if (cause instanceof TypeError) throw new TypeError("load() takes the bytes of hll.wasm, a WebAssembly.Module or a Response, as in load(fetch(url))", { cause });
    throw new Error(`${(isResponse && given.url) || "what load() was given"} is not hll.wasm, or this engine can't compile it: ${cause.message}`, { cause });
  }
}

/** Returns the classes and functions over a new instance, with a memory of its own. */
export async function load(source) {
  return make((await WebAssembly.instantiate(await compiledOf(source))).exports);
}

/** Makes the classes over the exports of one instance. */
export function make(exports) {
  const version = checkedVersion(exports), wasm = guarded(exports), { memory } = wasm;
  let u8, u32, view;

  /** Makes views of the memory again if it grew, which detaches those that were there. */
  function fresh() {
    if (u8 === undefined || u8.buffer !== memory.buffer) {
      u8 = new Uint8Array(memory.buffer);
      u32 = new Uint32Array(memory.buffer);
      view = new DataView(memory.buffer);
    }
  }

  function allocated(size) {
    const at = tried(() => (size < 0x7fffffff ? wasm.alloc(size) >>> 0 : 0));
    if (at === 0) throw new HllError(MEMORY);
    fresh();
    return at;
  }

  // The counters of sketches that were collected. They are freed some at a time, so thousands of them don't hold up the program.
  const SLICE = 256, collected = [];
  let isFreeing = false;

  function freeSome(n) {
    for (const at of collected.splice(-n)) if (wasm.trap === null) wasm.counter_free(at);
  }

  function freeInSlices() {
    freeSome(SLICE);
    isFreeing = collected.length > 0;
    if (isFreeing) setTimeout(freeInSlices, 0).unref?.();
  }

  const owners = new FinalizationRegistry((at) => {
    collected.push(at);
    if (!isFreeing) setTimeout(freeInSlices, 0).unref?.();
    isFreeing = true;
  });

  /** Returns an address, or 0 if there is no memory even after all that was collected is freed. */
  function tried(allocate) {
    const at = allocate();
    if (at !== 0 || collected.length === 0) return at;
    freeSome(collected.length);
    return allocate();
  }

  // Memory that every call uses: a size and the number of an image, what a call reports, and a batch of values with its coupons.
  const VALUES_ROOM = 1 << 16, MOST_VALUES = 1 << 12;
  const SIZE = allocated(16), FAILED = SIZE + 8, REPORT = allocated(512), VALUES = allocated(VALUES_ROOM);
  const COUPONS = allocated(4 * MOST_VALUES);

  function ensure(status, more) {
    fresh();
    if (status !== OK) throw new HllError(status, more);
  }

  // Room for what a call reads and writes, so small calls allocate nothing here. A call within another one gets what that one left.
  const SCRATCH_ROOM = 1 << 18, SCRATCH = allocated(SCRATCH_ROOM);
  let scratched = 0;

  /** Makes a call with the address of memory, which is free again after it. */
  function borrowed(size, call) {
    const isLarge = size > SCRATCH_ROOM - scratched, rounded = isLarge ? 0 : (size + 15) & ~15;
    const at = isLarge ? allocated(size) : SCRATCH + scratched;
    scratched += rounded;
    fresh();
    try {
      return call(at);
    } finally {
      scratched -= rounded;
      if (isLarge && wasm.trap === null) wasm.free(at);
    }
  }

  /** Makes a call over a copy of bytes in the module's memory. */
  function over(bytes, call) {
    return borrowed(bytes.length, (at) => {
      u8.set(bytes, at);
      return call(at, bytes.length);
    });
  }

  /** Returns what a call writes into a buffer, which grows to the size that the call reports. */
  function written(call, room = 4136) {
    const found = borrowed(room, (out) => {
      const status = call(out, room, SIZE);
      fresh();
      if (status === BUFFER && u32[SIZE >> 2] > room) return u32[SIZE >> 2];
      ensure(status);
      return u8.slice(out, out + u32[SIZE >> 2]);
    });
    return typeof found === "number" ? written(call, found) : found;
  }

  const realAt = (at) => view.getFloat64(REPORT + 8 * at, true);
  const countAt = (at) => Number(view.getBigUint64(REPORT + 8 * at, true));

  function estimation() {
    return {
      estimate: realAt(0),
      relativeStandardError: realAt(1),
      lower: [realAt(2), realAt(3), realAt(4)],
      upper: [realAt(5), realAt(6), realAt(7)],
    };
  }

  const histogram = () => Array.from({ length: 64 }, (_, value) => countAt(value));

  // ---- values

  /** Puts the bytes that a value is hashed as into the memory, which has room for eight bytes there, and returns how many they are.
   * If they don't fit, it returns the bytes. */
  function put(value, at, room) {
    fresh();
    switch (typeof value) {
      case "string":
        if (!isWhole(value)) throw new TypeError("a string has half a surrogate pair, so it has no UTF-8");
        if (value.length * 3 <= room) return encoder.encodeInto(value, u8.subarray(at, at + room)).written;
        return encoder.encode(value);
      case "number":
        if (!Number.isSafeInteger(value)) return putReal(value, at);
        view.setUint32(at, value, true);
        view.setUint32(at + 4, Math.floor(value / 4294967296), true);
        return 8;
      case "bigint":
        if (value < -(1n << 63n) || value >= 1n << 64n) throw new RangeError("an integer outside -2^63 to 2^64 - 1");
        view.setBigUint64(at, BigInt.asUintN(64, value), true);
        return 8;
      case "boolean":
        view.setUint32(at, value ? 1 : 0, true);
        view.setUint32(at + 4, 0, true);
        return 8;
    }
    if (value instanceof Real) return putReal(value.number, at);
    if (ArrayBuffer.isView(value) || value instanceof ArrayBuffer || isShared(value)) return bytesOf(value);
    throw new TypeError("a value is a string, a number, a bigint, a boolean, a Real or bytes");
  }

  function putReal(value, at) {
    if (Number.isNaN(value)) {
      view.setUint32(at, 0, true);
      view.setUint32(at + 4, 0x7ff80000, true);
    } else {
      view.setFloat64(at, value + 0, true);
    }
    return 8;
  }

  /** Returns the raw coupon of a value. */
  function couponOf(value) {
    const found = put(value, VALUES, VALUES_ROOM);
    if (typeof found === "number") return wasm.hll_coupon(VALUES, found) >>> 0;
    return over(found, (at, len) => wasm.hll_coupon(at, len) >>> 0);
  }

  /** Passes the coupons of values on, some thousands at a time: `take` gets their address and their number. If a value throws, those
   * before it are passed on. */
  function couponsOf(values, take) {
    if (typeof values === "string") throw new TypeError("addMany takes many values; for one string call add");
    if (kindOf(values) !== undefined) return couponsOfNumbers(numbersOf(values), take);
    // memory of its own, since an iterator may use other sketches, or this one, between two values
    borrowed(VALUES_ROOM + 8 * MOST_VALUES + 8, (batch) => couponsIn(batch, values, take));
  }

  function couponsIn(batch, values, take) {
    const offsets = batch + VALUES_ROOM, coupons = offsets + 4 * MOST_VALUES + 4;
    let n = 0, end = 0, number = -1;
    u32[offsets >> 2] = 0;
    const flush = () => {
      if (n === 0) return;
      const count = n, size = end;
      n = end = 0;
      ensure(wasm.hll_coupons_ends32(batch, size, offsets, count + 1, coupons, MOST_VALUES));
      take(coupons, count);
    };
    try {
      for (const value of values) {
        number++;
        if (isMissing(value)) continue;
        if (n === MOST_VALUES || VALUES_ROOM - end < 256) flush();
        let found;
        try {
          found = put(value, batch + end, VALUES_ROOM - end);
        } catch (why) {
          why.message = `values[${number}]: ${why.message}`;
          throw why;
        }
        if (typeof found !== "number") {
          if (found.length > VALUES_ROOM - end) flush();
          if (found.length > VALUES_ROOM) {
            over(found, (at, len) => { u32[coupons >> 2] = wasm.hll_coupon(at, len); });
            take(coupons, 1);
            continue;
          }
          fresh();
          u8.set(found, batch + end);
          found = found.length;
        }
        end += found;
        u32[(offsets >> 2) + ++n] = end;
      }
    } finally {
      if (wasm.trap === null) flush();
    }
  }

  function couponsOfNumbers(values, take) {
    const kind = kindOf(values), isReal = kind.startsWith("Float"), isBig = kind.startsWith("Big"), isSigned = !/^(Big)?Uint/.test(kind);
    for (let from = 0; from < values.length; from += MOST_VALUES) {
      const n = Math.min(MOST_VALUES, values.length - from);
      fresh();
      if (isReal) {
        for (let i = 0; i < n; i++) putReal(values[from + i], VALUES + 8 * i);
      } else if (isBig) {
        for (let i = 0; i < n; i++) view.setBigUint64(VALUES + 8 * i, BigInt.asUintN(64, values[from + i]), true);
      } else {
        for (let i = 0, to = VALUES >> 2; i < n; i++, to += 2) {
          u32[to] = values[from + i];
          u32[to + 1] = isSigned ? values[from + i] >> 31 : 0;
        }
      }
      ensure(wasm.hll_coupons_fixed(VALUES, 8 * n, 8, COUPONS, MOST_VALUES));
      take(COUPONS, n);
    }
  }

  // ---- counters: sketches in the module's memory that grow by themselves (bindings/c/hll.h)

  class Counter {
    constructor(lgK, lgMaxK) {
      this.at = tried(() => wasm.counter_new(lgK, lgMaxK) >>> 0);
      if (this.at === 0) throw new HllError(MEMORY);
      owners.register(this, this.at, this);
    }

    free() {
      if (this.at !== 0 && wasm.trap === null) {
        owners.unregister(this);
        wasm.counter_free(this.at);
      }
      this.at = 0;
    }

    /** Its address. */
    get place() {
      if (this.at === 0) throw new TypeError("the sketch was freed");
      return this.at;
    }

    add(value) {
      const found = put(value, VALUES, VALUES_ROOM), { place } = this;
      if (typeof found === "number") ensure(wasm.hll_counter_add(place, VALUES, found));
      else over(found, (at, len) => ensure(wasm.hll_counter_add(place, at, len)));
    }

    addMany(values) {
      couponsOf(values, (coupons, n) => ensure(wasm.hll_counter_add_coupons(this.place, coupons, n)));
    }

    join(image) {
      const { place } = this;
      return over(image, (at, len) => {
        checkEnd(at, len);
        return wasm.hll_counter_join(place, at, len);
      });
    }

    /** Returns what the state says: its lg_k, the width of the images that were merged, its stage, and whether it is empty. */
    info() {
      ensure(wasm.hll_counter_info(this.place, REPORT));
      return { lgK: u8[REPORT + 8], width: u8[REPORT + 9], stage: u8[REPORT + 10], isEmpty: u8[REPORT + 11] === 1 };
    }

    image(width) {
      const { place } = this;
      return written((out, room, size) => wasm.hll_counter_image(place, width, out, room, size));
    }

    estimation() {
      ensure(wasm.hll_counter_estimate(this.place, REPORT));
      return estimation();
    }

    /** Merges a Sketch, a Union, Registers or an image: by its counter, if it has one and the width of images doesn't matter. */
    merge(other, isByCounter) {
      const counter = isByCounter ? counterOf(other) : null;
      const image = counter === null ? imageOf(other) : null;
      const status = counter === null ? this.join(image) : wasm.hll_counter_join_counter(this.place, counter.place);
      if (status !== OTHER_LG_K) return ensure(status);
      const lgKs = [this.info().lgK, counter === null ? headOf(image).lgK : counter.info().lgK];
      throw new HllError(status, { lgKs, message: `The sketches have lg_k ${lgKs[0]} and ${lgKs[1]}, and no lgMaxK was given.` });
    }
  }

  /** Returns how many bytes follow an image in the memory of the module. */
  function moreAt(at, len) {
    ensure(wasm.hll_image_trailing(at, len, SIZE));
    return u32[SIZE >> 2];
  }

  /** Throws HllError if other bytes follow an image. What is no image is left to the call that reads it. */
  function checkEnd(at, len) {
    const more = moreAt(at, len);
    if (more === 0 || wasm.hll_image_check(at, len) !== OK) return;
    throw new HllError(TRAILING, { message: `Bytes follow the image, which takes ${len - more} bytes of ${len}.` });
  }

  /** The counter of each sketch that was freed. */
  const freed = Object.assign(Object.create(Counter.prototype), { at: 0 });

  // ---- images

  /** Returns why bytes are not an image, as a word of REASONS, or null if they are one. */
  function fault(data) {
    const status = over(bytesOf(data), (at, len) => {
      const found = wasm.hll_image_check(at, len);
      return found === OK && moreAt(at, len) > 0 ? TRAILING : found;
    });
    fresh();
    if (status === MEMORY) throw new HllError(status);
    return status === OK ? null : REASONS[status];
  }

  /** Returns what the header of an image and the counts after it say, of at least its first 40 bytes. */
  function headOf(data) {
    return over(bytesOf(data).subarray(0, HEAD_BYTES), (at, len) => {
      ensure(wasm.hll_image_head(at, len, REPORT));
      const [lgK, width, stage, flags, minimum, fault] = u8.subarray(REPORT + 12);
      return { size: countAt(0), count: u32[(REPORT >> 2) + 2], lgK, width, stage: STAGES[stage], flags, minimum, fault: fault === OK ? null : REASONS[fault] };
    });
  }

  /** Returns whether an untrusted image is quick to read, or to reject, by its size and the lg_k of its header. */
  function isSmall(data, limits = {}) {
    const bytes = bytesOf(data), { maxLgK = 12, maxBytes = 8192 } = optionsOf(limits, "maxLgK", "maxBytes");
    return bytes.length <= maxBytes && headOf(bytes).lgK <= maxLgK;
  }

  /** Returns how many bytes the image has that these bytes begin with. */
  function sizeOf(data) {
    return over(bytesOf(data), (at, len) => {
      ensure(wasm.hll_image_size(at, len, SIZE));
      return u32[SIZE >> 2];
    });
  }

  /** Returns what an image says about its sketch. */
  function infoOf(data) {
    return over(bytesOf(data), (at, len) => {
      ensure(wasm.hll_image_info(at, len, REPORT));
      return {
        lgK: u8[REPORT + 56],
        width: u8[REPORT + 57],
        stage: STAGES[u8[REPORT + 58]],
        isEmpty: u8[REPORT + 59] === 1,
        outOfOrder: u8[REPORT + 60] === 1,
        coupons: countAt(0),
        zeros: countAt(1),
        hip: realAt(4),
        kxq0: realAt(5),
        kxq1: realAt(6),
      };
    });
  }

  /** Returns how many registers of an image have each value from 0 to 63. */
  function histogramOf(data) {
    return over(bytesOf(data), (at, len) => {
      ensure(wasm.hll_image_histogram(at, len, REPORT));
      return histogram();
    });
  }

  /** Returns the HIP estimate that the writer of an image kept in it, or null if there is none. */
  function hipOf(data) {
    return over(bytesOf(data), (at, len) => {
      const status = wasm.hll_hip_estimate(at, len, REPORT);
      if (status === ARGUMENT) return null;
      ensure(status);
      return estimation();
    });
  }

  /** Returns whether two images have the same registers at the smaller lg_k. */
  function agree(left, right) {
    return over(bytesOf(left), (a, aLen) => over(bytesOf(right), (b, bLen) => {
      ensure(wasm.hll_images_agree(a, aLen, b, bLen, REPORT, FAILED));
      return u8[REPORT] === 1;
    }));
  }

  const imageOf = (other) => (other instanceof Estimator ? other.toBytes() : bytesOf(other));
  // The counter of a Sketch or a Union, or null.
  let counterOfSketch, counterOfUnion;
  const counterOf = (other) => (other instanceof Sketch ? counterOfSketch(other) : other instanceof Union ? counterOfUnion(other) : null);
  const unmade = Symbol("a sketch that gets its bytes later");

  // ---- sketches

  /** What a Sketch, a Union and Registers have in common: calls over their estimation() and toBytes(). */
  class Estimator {
    constructor() {
      // structuredClone and postMessage copy an object's own properties but not its private fields, so they would make {} of a sketch.
      // They throw DataCloneError if an own property is a function.
      Object.defineProperty(this, "toJSON", { value: this.toJSON, enumerable: true });
    }

    estimate() {
      return this.estimation().estimate;
    }

    /** Returns the lower and the upper bound at 1, 2 or 3 standard deviations. */
    bounds(deviations = 2) {
      const { lower, upper } = this.estimation(), at = checkedDeviations(deviations) - 1;
      return [lower[at], upper[at]];
    }

    /** Returns the image as base64. */
    toBase64(width) {
      return base64Of(this.toBytes(width));
    }

    /** Returns the image as base64, for JSON.stringify. */
    toJSON() {
      return this.toBase64();
    }
  }

  /** A sketch: it counts distinct values. */
  class Sketch extends Estimator {
    #image = null; // as it was read, until the sketch changes
    #counter = null;
    #width;

    constructor(lgK = DEFAULT_LG_K, width = 8) {
      super();
      if (lgK === unmade) return;
      this.#width = checkedWidth(width);
      this.#counter = new Counter(checkedLgK(lgK), 0);
    }

    static {
      counterOfSketch = (it) => it.#counter;
    }

    /** Reads an image. */
    static fromBytes(data) {
      const bytes = bytesOf(data).slice(), made = new Sketch(unmade);
      over(bytes, (at, len) => {
        ensure(wasm.hll_image_check(at, len));
        checkEnd(at, len);
      });
      const { size, width } = headOf(bytes);
      made.#image = bytes.subarray(0, size);
      made.#width = width;
      return made;
    }

    /** Reads an image in base64. */
    static fromBase64(text) {
      return Sketch.fromBytes(bytesOfBase64(text));
    }

    #own() {
      if (this.#counter === null) {
        const counter = new Counter(headOf(this.#image).lgK, 0);
        ensure(counter.join(this.#image));
        this.#counter = counter;
        this.#image = null;
      }
      return this.#counter;
    }

    /** Adds one value; null and undefined are skipped. */
    add(value) {
      if (!isMissing(value)) this.#own().add(value);
      return this;
    }

    /** Adds values. The numbers of an array of numbers of one type count as that type says: Float64Array as real numbers. */
    addMany(values) {
      this.#own().addMany(values);
      return this;
    }

    /** Merges a sketch, registers or an image into this sketch. Without lgMaxK both need one lg_k, unless one is empty. */
    merge(other, lgMaxK = 0) {
      const union = new Union({ lgMaxK });
      try {
        union.add(this).add(other);
        const image = union.toBytes();
        this.#counter?.free();
        this.#counter = null;
        this.#image = image;
        this.#width = union.width;
      } finally {
        union.free();
      }
      return this;
    }

    /** Returns the estimate with its error and bounds. */
    estimation() {
      if (this.#counter !== null) return this.#counter.estimation();
      return over(this.#image, (at, len) => {
        ensure(wasm.hll_estimate(at, len, REPORT));
        return estimation();
      });
    }

    /** Returns the image, with the fields from which other libraries estimate. */
    toBytes(width = this.#width) {
      checkedWidth(width);
      if (this.#counter !== null) return this.#counter.image(width);
      return over(this.#image, (at, len) => written((out, room, size) => wasm.hll_image_convert(at, len, width, out, room, size), len + 64));
    }

    get lgK() {
      return this.#counter !== null ? this.#counter.info().lgK : headOf(this.#image).lgK;
    }

    get width() {
      return this.#width;
    }

    /** "list", "set" or "registers": the form of the image. */
    get stage() {
      if (this.#counter !== null && this.#counter.info().stage === IN_REGISTERS) return "registers";
      return headOf(this.#image ?? this.toBytes()).stage;
    }

    get isEmpty() {
      return this.#counter !== null ? this.#counter.info().isEmpty : infoOf(this.#image).isEmpty;
    }

    /** Returns a copy, independent of this sketch. */
    copy() {
      if (this.#image !== null) return Sketch.fromBytes(this.#image);
      const made = new Sketch(unmade);
      made.#width = this.#width;
      made.#counter = new Counter(this.lgK, 0);
      ensure(wasm.hll_counter_copy(made.#counter.place, this.#counter.place));
      return made;
    }

    /** Frees the memory now, and not when the object is collected. A sketch that was freed can't be used. */
    free() {
      this.#counter?.free();
      this.#counter = freed;
      this.#image = null;
    }
  }

  // ---- unions

  /** A union of sketches, which are added one at a time. */
  class Union extends Estimator {
    #counter;
    #isOpen; // whether the first sketch will decide the lg_k: until then it is the default
    #width;

    constructor(options = {}) {
      super();
      const { lgMaxK = 0, width = 0 } = typeof options === "number" ? { lgMaxK: options } : optionsOf(options, "lgMaxK", "width");
      if (width !== 0) checkedWidth(width);
      if (lgMaxK !== 0) checkedLgK(lgMaxK, "lgMaxK");
      this.#width = width;
      this.#isOpen = lgMaxK === 0;
      this.#counter = new Counter(lgMaxK, lgMaxK);
    }

    static {
      counterOfUnion = (it) => (it.#isOpen ? null : it.#counter);
    }

    /** Merges a sketch, registers or an image into the union. On an error the union is unchanged. */
    add(other) {
      this.#counter.merge(other, this.#width !== 0);
      this.#isOpen = false;
      return this;
    }

    /** Returns the estimate with its error and bounds. */
    estimation() {
      return this.#counter.estimation();
    }

    get lgK() {
      const { lgK } = this.#counter.info();
      return this.#isOpen ? DEFAULT_LG_K : lgK;
    }

    get width() {
      return this.#width || this.#counter.info().width;
    }

    get isEmpty() {
      return this.#counter.info().isEmpty;
    }

    /** Returns the image of the union. */
    toBytes(width = this.width) {
      return (this.#isOpen ? new Counter(DEFAULT_LG_K, 0) : this.#counter).image(checkedWidth(width));
    }

    /** Returns the union as a sketch, which is a copy. */
    toSketch() {
      return Sketch.fromBytes(this.toBytes());
    }

    /** Frees the memory now, and not when the object is collected. A union that was freed can't be used. */
    free() {
      this.#counter.free();
      this.#isOpen = false;
    }
  }

  if (typeof Symbol.dispose === "symbol")
    for (const kind of [Sketch, Union]) Object.defineProperty(kind.prototype, Symbol.dispose, { value: kind.prototype.free });

  // ---- registers

  /** Registers in a typed array of the program's, one byte for each. */
  class Registers extends Estimator {
    #array;
    #bytes; // the same bytes, of a length that doesn't change

    constructor(of = DEFAULT_LG_K) {
      super();
      this.#array = typeof of === "number" ? new Uint8Array(1 << checkedLgK(of)) : of;
      if (!(this.#array instanceof Uint8Array)) throw new TypeError("registers are an lg_k or a Uint8Array");
      this.#bytes = bytesOf(this.#array);
      const count = this.#bytes.length;
      if (count < 16 || count > 1 << 21 || count & (count - 1)) throw rejected(`The registers are ${count}; they must be a power of two from 2^4 to 2^21.`);
    }

    /** Makes a call over a copy of the registers, which takes their place if it succeeds. */
    #changed(call) {
      over(this.#bytes, (at, count) => {
        call(at, count);
        fresh();
        this.#bytes.set(u8.subarray(at, at + count));
      });
      return this;
    }

    #addCoupons(coupons, n) {
      this.#changed((at, count) => ensure(wasm.hll_registers_add_coupons(at, count, coupons, n)));
    }

    /** Adds one value; null and undefined are skipped. */
    add(value) {
      if (isMissing(value)) return this;
      const coupon = couponOf(value);
      fresh();
      u32[COUPONS >> 2] = coupon;
      this.#addCoupons(COUPONS, 1);
      return this;
    }

    /** Adds values, as Sketch does. */
    addMany(values) {
      couponsOf(values, (coupons, n) => this.#addCoupons(coupons, n));
      return this;
    }

    /** Takes the maximum of these registers and those of a sketch, registers or an image. */
    merge(other) {
      const coarser = () => {
        fresh();
        return new HllError(COARSER, { lgKs: [this.lgK, u8[REPORT]], message: `These registers have lg_k ${this.lgK}, and what is to be merged has ${u8[REPORT]}. Fold these first.` });
      };
      const isArray = other instanceof Registers, bytes = isArray ? other.#bytes : imageOf(other);
      return this.#changed((at, count) => over(bytes, (from, len) => {
        const status = isArray ? wasm.hll_registers_merge_registers(at, count, from, len, REPORT) : wasm.hll_registers_merge(at, count, from, len, REPORT);
        if (status === COARSER) throw coarser();
        ensure(status);
      }));
    }

    /** Returns new registers, folded to a smaller lg_k. */
    fold(lgK) {
      checkedLgK(lgK);
      return over(this.#bytes, (at, count) => {
        ensure(wasm.hll_registers_fold(at, count, lgK));
        return new Registers(u8.slice(at, at + (1 << lgK)));
      });
    }

    /** Returns how many registers have each value from 0 to 63. */
    histogram() {
      return over(this.#bytes, (at, count) => {
        ensure(wasm.hll_registers_histogram(at, count, REPORT));
        return histogram();
      });
    }

    /** Returns the estimate with its error and bounds. */
    estimation() {
      return over(this.#bytes, (at, count) => {
        ensure(wasm.hll_registers_estimate(at, count, REPORT));
        return estimation();
      });
    }

    /** Returns an image of the registers. */
    toBytes(width = 8) {
      checkedWidth(width);
      return over(this.#bytes, (at, count) => written((out, room, size) => wasm.hll_registers_image(at, count, width, out, room, size), 40 + 2 * count));
    }

    /** The registers: the array that was passed, or the one that was made. */
    get array() {
      return this.#array;
    }

    get lgK() {
      return 31 - Math.clz32(this.#bytes.length);
    }
  }

  return { Sketch, Union, Registers, fault, isSmall, headOf, sizeOf, infoOf, histogramOf, hipOf, agree, couponOf, version };
}
