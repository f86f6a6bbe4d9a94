// What is computed of images: in the page, or in a Worker for large images. `hll` has the functions of core.mjs.

/** Returns where an image that is rejected has its fault: `at` is the offset of the first byte, and `says` a few words. */
function faultPlace(hll, bytes, reason) {
  const place = (at, says) => ({ at, says });
  const u32 = (at) => (bytes[at] | bytes[at + 1] << 8 | bytes[at + 2] << 16 | bytes[at + 3] << 24) >>> 0;
  const { stage, lgK, width, flags, minimum, size } = hll.headOf(bytes), isCompact = (flags & 8) !== 0;
  switch (reason) {
    case "truncated": return place(bytes.length, "the first byte that is missing");
    case "preamble": return place(0, "the size of the preamble");
    case "version": return place(1, "the serial version");
    case "family": return place(2, "the family");
    case "lgk": return place(3, "lg_k");
    case "lgarr": return place(4, "the logarithm of the size of the table");
    case "width": case "stage": return place(7, "the byte of the stage and the width");
    case "count": return { list: place(6, "the count"), set: place(8, "the count"), registers: place(u32(32) > 2 ** lgK ? 32 : 36, "a count") }[stage];
    case "coupon": return couponPlace();
    case "register": return registerPlace();
  }
  return null;

  /** Returns the offset of the first coupon of a table, and how many there may be. */
  function table() {
    const first = { list: 8, set: 12, registers: 40 + 2 ** lgK / 2 }[stage];
    return [first, (size - first) / 4];
  }

  function couponPlace() {
    const [first, count] = table(), seen = new Set();
    for (let i = 0; i < count; i++) {
      const at = first + 4 * i, coupon = u32(at), key = stage === "registers" ? coupon % 2 ** lgK : coupon;
      if (coupon === 0 && !isCompact) continue;
      if (coupon >>> 26 === 0) return place(at, "a coupon of value 0");
      if (seen.has(key)) return place(at, stage === "registers" ? "an exception whose slot has one already" : "a coupon that comes twice");
      seen.add(key);
    }
    return null;
  }

  function registerPlace() {
    if (width === 8) {
      const at = bytes.subarray(40, 40 + 2 ** lgK).findIndex((value) => value > 63);
      return at < 0 ? null : place(40 + at, `the register of slot ${at} is ${bytes[40 + at]}`);
    }
    const [first, count] = table(), exceptions = new Map();
    for (let i = 0; i < count; i++)
      if (u32(first + 4 * i) !== 0) exceptions.set(u32(first + 4 * i) % 2 ** lgK, first + 4 * i);
    for (let slot = 0; slot < 2 ** lgK; slot++) {
      const at = 40 + (slot >> 1), nibble = slot & 1 ? bytes[at] >> 4 : bytes[at] & 15;
      if (nibble === 15 && !exceptions.has(slot)) return place(at, `slot ${slot} has no exception`);
      if (nibble < 15 && exceptions.has(slot)) return place(exceptions.get(slot), `an exception of slot ${slot}, whose nibble is ${nibble}`);
      if (nibble < 15 && minimum + nibble > 63) return place(at, `the register of slot ${slot} is ${minimum + nibble}`);
      if (nibble === 15 && u32(exceptions.get(slot)) >>> 26 < minimum + 15) return place(exceptions.get(slot), `an exception of slot ${slot} that is too small`);
    }
    return null;
  }
}

/** Reads an image: what its card shows. A set can take a second to read, so it is read once, and the rest comes from what was made of it,
 * which is quick to read. Registers are always quick. */
function studyOf(hll, bytes) {
  const sketch = new hll.Union(), head = hll.headOf(bytes);
  try {
    sketch.add(bytes);
    const isRegisters = head.stage === "registers", made = isRegisters ? bytes : sketch.toBytes();
    const info = isRegisters ? hll.infoOf(bytes) : { ...hll.infoOf(made), stage: head.stage, coupons: head.count, zeros: 0, width: head.width };
    return { info, size: head.size, found: sketch.estimation(), counts: hll.histogramOf(made), hip: isRegisters ? hll.hipOf(bytes) : null };
  } catch (why) {
    if (!(why instanceof HllError) || why.reason === "memory") throw why;
    return { reason: why.reason, message: MESSAGES[why.status], place: faultPlace(hll, bytes, why.reason) };
  } finally {
    sketch.free();
  }
}

/** Returns the union of images, as an image and what is read of it; or which image was rejected, and why. */
function unionOf(hll, images, lgMaxK, width) {
  const union = new hll.Union({ lgMaxK, width });
  try {
    for (let i = 0; i < images.length; i++) {
      try {
        union.add(images[i]);
      } catch (why) {
        if (!(why instanceof HllError)) throw why;
        return { rejected: i, reason: why.reason, message: why.message };
      }
    }
    const bytes = union.toBytes();
    return { bytes, ...studyOf(hll, bytes) };
  } finally {
    union.free();
  }
}

/** Does a job of the page's, and passes each result on with its number: { studies: [bytes ..] } or { images, lgMaxK, width }. */
function done(hll, job, pass) {
  if (job.studies) job.studies.forEach((bytes, i) => pass(studyOf(hll, bytes), i));
  else pass(unionOf(hll, job.images, job.lgMaxK, job.width), 0);
}
