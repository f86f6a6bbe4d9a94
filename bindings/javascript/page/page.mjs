// What the page does. core.mjs, study.mjs and `packed`, the module, stand above.

const $ = (id) => document.getElementById(id);
const MOST_BYTES = 64 << 20;
// Images of this many bytes together are read by a Worker, also if each of them is small.
const LARGE = 1 << 20;
const whole = new Intl.NumberFormat("en", { maximumFractionDigits: 0 });
const exact = (x) => (Number.isFinite(x) ? whole.format(x) : "infinite");
const percent = (x) => (100 * x).toFixed(x < 0.001 ? 4 : 2) + " %";
const many = (n, word) => `${exact(n)} ${word}${n === 1 ? "" : "s"}`;

/** Makes an element: its name, its attributes, and what is in it. */
function el(name, attributes = {}, ...inside) {
  const isDrawn = ["svg", "rect", "text", "line", "g", "title", "path"].includes(name);
  const made = isDrawn ? document.createElementNS("http://www.w3.org/2000/svg", name) : document.createElement(name);
  for (const [key, value] of Object.entries(attributes))
    if (key.startsWith("on")) made.addEventListener(key.slice(2), value);
    else if (value !== false) made.setAttribute(key, value === true ? "" : value);
  made.append(...inside.flat().filter((it) => it !== null && it !== undefined));
  return made;
}

const rowsOf = (rows) => el("table", {}, el("tbody", {}, rows.filter(Boolean).map(([name, value, isFault]) => el("tr", isFault ? { class: "fault" } : {}, el("th", { scope: "row" }, name), el("td", {}, value)))));

// ---- strings of images

const hexOf = (bytes) => Array.from(bytes, (byte) => byte.toString(16).padStart(2, "0")).join("");

function ofHex(text) {
  const digits = text.replace(/^(0x|\\x|\\\\x|x')/i, "").replace(/'$/, "");
  if (digits.length % 2 !== 0 || !/^[0-9a-f]+$/i.test(digits)) return null;
  const bytes = new Uint8Array(digits.length / 2);
  for (let i = 0; i < bytes.length; i++) bytes[i] = parseInt(digits.substr(2 * i, 2), 16);
  return bytes;
}

function ofBase64(text) {
  try {
    return bytesOfBase64(text.replace(/-/g, "+").replace(/_/g, "/").replace(/=+$/, ""));
  } catch {
    return null;
  }
}

/** Returns whether bytes are an image: small ones are read, and of others only the head, as reading can take a second. */
function isImage(bytes) {
  if (hll.isSmall(bytes)) return hll.fault(bytes) === null;
  const { size, fault } = hll.headOf(bytes);
  return fault === null && size === bytes.length;
}

/** Returns a name in which letters are shown that would be invisible, or change the order or the lines of a text. */
const shownName = (name) => name.replace(/[\p{Cc}\p{Cf}\p{Zl}\p{Zp}]/gu, (letter) => `\\u{${letter.codePointAt(0).toString(16)}}`);

/** Returns the bytes of a string: of hex or base64, whichever is an image, else hex if both can be read. */
function ofText(text) {
  const found = [ofHex(text), ofBase64(text)].filter((it) => it !== null && it.length > 0);
  return found.find(isImage) ?? found[0] ?? null;
}

/** Returns the images of pasted text: a line for each; or all lines together, if only that is an image. */
function ofLines(text) {
  const lines = text.split(/\n/).map((line) => line.trim().replace(/^["']|["',;]+$/g, "")).filter((line) => line !== "");
  const found = lines.map((line) => ofText(line.replace(/\s+/g, "")));
  if (lines.length > 1 && found.some((it) => it === null || !isImage(it))) {
    const all = ofText(text.replace(/\s+/g, ""));
    if (all !== null && isImage(all)) return [{ name: "pasted text", bytes: all }];
  }
  const likely = found.filter((it) => it !== null && (it[1] === 1 || it[2] === 7)).length;
  if (lines.length > MOST_BAD_LINES && likely < lines.length / 2) {
    const message = `This is no list of images: of its ${exact(lines.length)} lines ${exact(likely)} look like one.`;
    return [{ name: "pasted text", bytes: null, text: lines.slice(0, 5).join("\n"), study: { reason: "text", message } }];
  }
  return found.map((bytes, i) => ({ name: lines.length > 1 ? `line ${i + 1}` : "pasted text", bytes, text: lines[i] }));
}

// ---- jobs, in the page or in a Worker

// A text of more lines, of which most are no image, gets one card.
const MOST_BAD_LINES = 20;

const workerText = () => {
  const above = $("script").textContent;
  return above.slice(0, above.indexOf("/" + "* end of what a Worker gets *" + "/")) + `
    let hll;
    onmessage = async ({ data }) => {
      if (data.compiled) hll = make((await WebAssembly.instantiate(data.compiled)).exports);
      else done(hll, data, (found, i) => postMessage({ found, i }));
    };`;
};

/** Returns whether images are quick to read, all together. */
const areQuick = (images) => images.every((bytes) => hll.isSmall(bytes)) && images.reduce((sum, bytes) => sum + bytes.length, 0) < LARGE;

/** Does a job over images, and passes on each of its n results with its number. A Worker does what isn't quick, and is ended after the
 * seconds that the page allows: what it hasn't done is rejected with the reason "time". */
async function doJob(job, images, n, pass) {
  if (areQuick(images)) return done(hll, job, pass);
  const waiting = new Set(Array.from({ length: n }, (_, i) => i));
  const failure = await inWorker(job, ({ found, i }) => {
    waiting.delete(i);
    pass(found, i);
    return waiting.size === 0;
  });
  for (const i of waiting) pass(failure, i);
}

/** Does a job in a Worker. `take` gets each message, and returns whether it was the last. Returns why it ended before that. */
async function inWorker(job, take) {
  const url = URL.createObjectURL(new Blob([workerText()], { type: "text/javascript" })), seconds = Math.max(0, Number($("limit").value));
  const rejected = (reason, message) => ({ rejected: -1, reason, message });
  let worker;
  try {
    worker = new Worker(url);
    return await new Promise((resolve) => {
      setTimeout(() => resolve(rejected("time", `Reading took longer than ${seconds} s, so it was stopped.`)), 1000 * seconds);
      worker.onmessage = ({ data }) => take(data) && resolve(null);
      worker.onerror = (event) => resolve(rejected("worker", `Reading failed: ${event.message}`));
      worker.postMessage({ compiled });
      worker.postMessage(job);
    });
  } catch (why) {
    return rejected("worker", `Reading failed: ${why.message}`);
  } finally {
    worker?.terminate();
    URL.revokeObjectURL(url);
  }
}

// ---- one image

const FLAGS = [[4, "empty"], [8, "compact"], [16, "out of order"]];
const STAGE_NAMES = ["list", "set", "registers"];

/** Returns the rows of a header, which may be wrong or cut off. `reason` marks the row that is at fault. */
function headerRows(bytes, reason) {
  const byte = (at) => (at < bytes.length ? bytes[at] : null), of = (at, say) => (byte(at) === null ? "missing" : say(byte(at)));
  const flags = (value) => FLAGS.filter(([bit]) => value & bit).map(([, name]) => name).join(", ") || "none";
  const u32 = (at) => (at + 4 <= bytes.length ? new DataView(bytes.buffer, bytes.byteOffset).getUint32(at, true) : null);
  const real = (at) => (at + 8 <= bytes.length ? String(new DataView(bytes.buffer, bytes.byteOffset).getFloat64(at, true)) : "missing");
  const stage = byte(7) === null ? null : byte(7) & 3;
  return [
    ["byte 0, preamble", of(0, (b) => `${b} units of 4 bytes`), reason === "preamble"],
    ["byte 1, serial version", of(1, String), reason === "version"],
    ["byte 2, family", of(2, (b) => `${b}${b === 7 ? ", HLL" : ", and not 7"}`), reason === "family"],
    ["byte 3, lg_k", of(3, (b) => (4 <= b && b <= 21 ? `${b}, so ${exact(2 ** b)} registers` : `${b}, outside 4 to 21`)), reason === "lgk"],
    ["byte 4, logarithm of the table", of(4, String), reason === "lgarr"],
    ["byte 5, flags", of(5, (b) => `${flags(b)} (${b})`)],
    [stage === 2 ? "byte 6, minimum" : "byte 6, count of a list", of(6, String), reason === "count" && stage === 0],
    ["byte 7, stage", of(7, (b) => STAGE_NAMES[b & 3] ?? "bits 3, which is no stage"), reason === "stage"],
    ["byte 7, width", of(7, (b) => ((b >> 2 & 3) === 3 ? "bits 3, which is no width" : `${4 + 2 * (b >> 2 & 3)} bits`)), reason === "width"],
    stage === 1 && u32(8) !== null && ["byte 8, coupons", exact(u32(8)), reason === "count"],
    stage === 2 && bytes.length >= 32 && ["byte 8, hipAccum", real(8)],
    stage === 2 && bytes.length >= 32 && ["byte 16, kxq0", real(16)],
    stage === 2 && bytes.length >= 32 && ["byte 24, kxq1", real(24)],
    stage === 2 && u32(36) !== null && ["byte 32, registers at the minimum", exact(u32(32)), reason === "count"],
    stage === 2 && u32(36) !== null && ["byte 36, exceptions", exact(u32(36)), reason === "count"],
  ].filter(Boolean);
}

/** Returns how many registers are expected to have each value from 0 to 63, after so many distinct values. */
function expectedCounts(values, registers) {
  const atMost = (value) => (value >= 63 ? 1 : Math.exp(values * Math.log1p(-(0.5 ** value) / registers)));
  return Array.from({ length: 64 }, (_, value) => registers * (atMost(value) - (value === 0 ? 0 : atMost(value - 1))));
}

/** Draws how many registers have each value, and for registers a curve of how many are expected to have it. */
function picture(counts, info, estimate) {
  const isRegisters = info.stage === "registers", theory = isRegisters && Number.isFinite(estimate) ? expectedCounts(estimate, 2 ** info.lgK) : null;
  const first = isRegisters ? 0 : 1, last = Math.max(first, counts.findLastIndex((count, value) => count !== 0 || (theory !== null && theory[value] >= 0.5)));
  const shown = counts.slice(first, last + 1), most = Math.max(1, ...shown, ...(theory ?? [])), W = 400, H = 150, LEFT = 48, FOOT = 22;
  const wide = (W - LEFT - 4) / Math.max(shown.length, 8), high = H - FOOT - 10, every = Math.ceil(22 / wide);
  const x = (i) => (LEFT + (i + 0.5) * wide).toFixed(2), y = (count) => (10 + high - high * count / most).toFixed(2);
  const title = isRegisters ? `Registers by value, 0 to ${last}, with the expected number of each` : "Coupons by value";
  const marks = most > 2 ? [Math.floor(most / 2), Math.floor(most)] : [Math.floor(most)];
  return el("figure", {}, el("svg", { viewBox: `0 0 ${W} ${H}`, role: "img", "aria-label": title },
    el("title", {}, title),
    marks.map((count) => el("g", {}, el("line", { x1: LEFT, x2: W, y1: y(count), y2: y(count) }), el("text", { x: LEFT - 5, y: Number(y(count)) + 3, "text-anchor": "end" }, exact(count)))),
    shown.map((count, i) => el("rect", { x: (LEFT + i * wide + wide * 0.1).toFixed(2), y: y(count), width: (wide * 0.8).toFixed(2), height: (high * count / most).toFixed(2) }, el("title", {}, `value ${i + first}: ${exact(count)}${theory ? `, expected ${theory[i + first].toFixed(1)}` : ""}`))),
    el("line", { x1: LEFT, x2: W, y1: 10 + high, y2: 10 + high }),
    theory && el("path", { class: "expected", d: shown.map((_, i) => `${i ? "L" : "M"}${x(i)} ${y(theory[i + first])}`).join("") }),
    shown.map((_, i) => ((i % every === 0) ? el("text", { x: x(i), y: H - 8, "text-anchor": "middle" }, String(i + first)) : null))),
  el("figcaption", { class: "soft" }, isRegisters ? "How many registers have each value. The line shows how many are expected for this estimate." : "How many coupons have each value."));
}

const boundRows = (found) => [0, 1, 2].map((d) => [`${d + 1} standard deviation${d ? "s" : ""}`, `${exact(found.lower[d])} to ${exact(found.upper[d])}`]);

function estimatePart(found) {
  return el("div", {}, el("div", { class: "big" }, exact(found.estimate)), el("div", { class: "soft" }, "distinct values" + (found.relativeStandardError < 5e-7 ? "" : `, ± ${percent(found.relativeStandardError)} (68 % of cases)`)), rowsOf(boundRows(found)));
}

const placeOf = (place) => (place ? `At byte ${exact(place.at)}: ${place.says}.` : "");
const fieldsOf = (info) => (info.kxq0 + info.kxq1 === 0 ? "0: other libraries can't estimate" : "set");

/** Returns what was read of an image as text, to copy into a report. */
function reportOf({ name, bytes, study: it }) {
  const lines = [`cimbarohe ${hll.version}, the page`, `image: ${name}`];
  if (bytes === null) lines.push(`rejected: ${it.reason}. ${it.message}`);
  else {
    lines.push(`bytes: ${bytes.length}`, ...headerRows(bytes, it.reason).map(([row, value, isFault]) => `${row}: ${value}${isFault ? " (at fault)" : ""}`));
    if (it.reason) lines.push(`rejected: ${it.reason}. ${it.message} ${placeOf(it.place)}`.trim());
    else {
      const { info, found } = it, rounded = (x) => x.toPrecision(12).replace(/\.?0+$/, "");
      lines.push(`size: ${it.size}`, `stage: ${info.stage}${info.isEmpty ? ", empty" : ""}`, `coupons: ${info.coupons}`, `zeros: ${info.zeros}`,
        `estimate: ${rounded(found.estimate)}, relative standard error ${rounded(found.relativeStandardError)}`,
        ...boundRows(found).map(([row, value]) => `${row}: ${value}`), `HIP estimate: ${it.hip ? rounded(it.hip.estimate) : "none"}`, `estimator fields: ${info.stage === "registers" ? fieldsOf(info) : "none"}`,
        `by value: ${it.counts.map((count, value) => [value, count]).filter(([, count]) => count !== 0).map((pair) => pair.join(":")).join(" ")}`);
    }
    lines.push(`first bytes: ${hexOf(bytes.subarray(0, 48))}`);
  }
  return lines.join("\n") + "\n";
}

function cardOf(item) {
  const { bytes, study: it } = item;
  const head = el("header", {}, el("h3", {}, item.name), el("button", { type: "button", "aria-label": `Remove ${item.name}`, onclick: () => remove(item) }, "×"));
  if (!it) return el("article", { class: "card", "aria-busy": "true" }, head, el("p", {}, `Reading ${exact(bytes.length)} bytes …`));
  if (it.reason) {
    return el("article", { class: "card bad" }, head,
      el("p", { class: "why" }, el("strong", {}, "Rejected: " + it.reason + ". "), it.message, " ", placeOf(it.place)),
      bytes === null ? (item.text ? el("pre", {}, item.text.slice(0, 200)) : null) : rowsOf([["bytes", exact(bytes.length)], ...headerRows(bytes, it.reason)]),
      textsOf(null, item.name, item));
  }
  const { info } = it, isRegisters = info.stage === "registers";
  return el("article", { class: "card" }, head, estimatePart(it.found),
    info.isEmpty ? null : picture(it.counts, info, it.found.estimate),
    rowsOf([
      ["stage", info.stage + (info.isEmpty ? ", empty" : "")],
      ["lg_k", `${info.lgK}, so ${exact(2 ** info.lgK)} registers`],
      ["width", `${info.width} bits`],
      ["bytes", exact(it.size) + (bytes.length > it.size ? `, and ${exact(bytes.length - it.size)} bytes after the image` : "")],
      !isRegisters && ["coupons", exact(info.coupons)],
      isRegisters && ["zeros", exact(info.zeros)],
      it.hip && ["HIP estimate", `${exact(it.hip.estimate)} (not proved)`],
      isRegisters && ["estimator fields", fieldsOf(info)],
    ]),
    el("details", {}, el("summary", {}, "Header"), rowsOf(headerRows(bytes))),
    textsOf(bytes.subarray(0, it.size), item.name, item));
}

/** Makes the buttons below an image. `item` gives a report, and `bytes` the image, if there is one. */
function textsOf(bytes, name, item) {
  const shown = el("pre", { tabindex: 0, hidden: true, "aria-label": `Text of ${name}` });
  const say = (text) => { shown.textContent = text; shown.hidden = false; navigator.clipboard?.writeText(text).then(() => note("Copied."), () => {}); };
  const button = (label, onclick, isShown) => (isShown ? el("button", { type: "button", onclick }, label) : null);
  return el("div", {}, el("div", { class: "row" },
    button("Download", () => save(bytes, name), bytes),
    button("Hex", () => say(hexOf(bytes)), bytes),
    button("Base64", () => say(base64Of(bytes)), bytes),
    button("Report", () => say(reportOf(item)), item)), shown);
}

function save(bytes, name) {
  const link = el("a", { href: URL.createObjectURL(new Blob([bytes], { type: "application/octet-stream" })), download: name.replace(/[^\w.-]+/g, "_").replace(/(\.hll)?$/, ".hll") });
  link.click();
  setTimeout(() => URL.revokeObjectURL(link.href), 10000);
}

// ---- all images

const items = [];
const note = (text) => { $("said").textContent = text; };

function show(item) {
  const card = cardOf(item);
  if (item.card) item.card.replaceWith(card);
  else $("cards").append(card);
  item.card = card;
}

/** Returns why an item has no image that can be read, or undefined. */
function refused({ bytes }) {
  if (bytes === null) return { reason: "text", message: "This is neither hex nor base64." };
  if (bytes.length > MOST_BYTES) return { reason: "size", message: "This page reads images of up to 64 MiB." };
  return undefined;
}

async function addAll(added) {
  for (const item of added) item.study ??= refused(item);
  const read = added.filter((item) => !item.study), images = read.map((item) => item.bytes), isQuick = areQuick(images);
  items.push(...added);
  if (!isQuick) {
    added.forEach(show);
    changed();
    note(`Reading ${many(read.length, "image")}.`);
  }
  await doJob({ studies: images }, images, images.length, (found, i) => {
    read[i].study = found;
    if (!isQuick && items.includes(read[i])) show(read[i]);
  });
  if (isQuick) added.forEach(show);
  const bad = added.filter((item) => item.study.reason).length;
  note(`${many(added.length, "image")} read${bad ? `, ${bad} of them rejected` : ""}.`);
  changed();
}

function remove(item) {
  const at = items.indexOf(item);
  items.splice(at, 1);
  item.card.remove();
  changed();
  (items[Math.min(at, items.length - 1)]?.card.querySelector("header button") ?? $("paste")).focus();
}

function changed() {
  $("clear").disabled = items.length === 0;
  merge();
}

let merges = 0;

async function merge() {
  const good = items.filter((item) => item.study && !item.study.reason), found = $("union-found"), turn = ++merges;
  $("union").hidden = good.length === 0;
  if (good.length === 0) return;
  const job = { images: good.map((item) => item.bytes.subarray(0, item.study.size)), lgMaxK: Number($("bound").value), width: Number($("width").value) };
  let it;
  const later = doJob(job, job.images, 1, (found) => { it = found; });
  if (it === undefined) await later;
  if (turn !== merges) return;
  if (it.reason) {
    const advice = it.reason === "other_lg_k" ? " Choose a bound: then the union has that lg_k, or the smallest of the images with registers." : "";
    found.replaceChildren(el("p", { class: "why" }, el("strong", {}, `${good[it.rejected]?.name ?? "The union"}: ${it.reason}. `), it.message + advice));
    return;
  }
  const { bytes, info } = it, left = items.length - good.length;
  found.replaceChildren(el("div", { class: "grid2" },
    el("div", {}, estimatePart(it.found),
      rowsOf([["of", many(good.length, "image") + (left ? `, ${left} others left out` : "")], ["stage", info.stage], ["lg_k", String(info.lgK)], ["width", `${info.width} bits`], ["bytes", exact(bytes.length)]]),
      textsOf(bytes, "union", null)),
    info.isEmpty ? null : picture(it.counts, info, it.found.estimate)));
}

// ---- counting lines

function countLines() {
  const lines = $("lines").value.split("\n").map((line) => line.replace(/\r$/, ""));
  const values = $("skip-empty").checked ? lines.filter((line) => line !== "") : lines.slice(0, lines.at(-1) === "" ? -1 : undefined);
  const sketch = new hll.Sketch(Number($("count-lgk").value)).addMany(values.map((line) => line.toWellFormed?.() ?? line));
  return { sketch, lines: values.length };
}

function count() {
  const { sketch, lines } = countLines(), found = sketch.estimation();
  $("count-found").replaceChildren(el("p", {}, el("span", { class: "big" }, exact(found.estimate)), el("span", { class: "soft" }, ` distinct of ${many(lines, "line")}; ${exact(found.lower[1])} to ${exact(found.upper[1])} at 2 standard deviations; ${sketch.stage}, ${exact(sketch.toBytes().length)} bytes`)));
  $("count-to").disabled = lines === 0;
  sketch.free();
}

// ---- events

/** Returns the bytes of a file, or why it can't be read: a directory, for example, or a file that was removed. */
async function bytesOfFile(file) {
  try {
    return new Uint8Array(await file.slice(0, MOST_BYTES + 1).arrayBuffer());
  } catch (why) {
    return { reason: "file", message: `The browser can't read it (${why.name}). It may be a directory, or a file that was removed, or that you may not read.` };
  }
}

async function readFiles(files) {
  note(`Reading ${many(files.length, "file")}.`);
  const added = [];
  for (const file of files) {
    const name = shownName(file.name), bytes = await bytesOfFile(file);
    if (!(bytes instanceof Uint8Array)) {
      added.push({ name, bytes: null, study: bytes });
      continue;
    }
    const isText = bytes.length > 0 && !isImage(bytes) && bytes.every((byte) => byte >= 32 && byte < 127 || byte === 9 || byte === 10 || byte === 13);
    if (isText) added.push(...ofLines(new TextDecoder().decode(bytes)).map((it) => ({ ...it, name: it.name === "pasted text" ? name : `${name}, ${it.name}` })));
    else added.push({ name, bytes });
  }
  await addAll(added);
}

for (let lgK = 4; lgK <= 21; lgK++) {
  $("bound").append(el("option", { value: lgK }, String(lgK)));
  $("count-lgk").append(el("option", { value: lgK, selected: lgK === 12 }, String(lgK)));
}
$("version").textContent = hll.version;
$("read").addEventListener("click", () => {
  const added = ofLines($("paste").value);
  if (added.length === 0) note("Nothing is pasted.");
  else {
    $("paste").value = "";
    addAll(added);
  }
});
$("paste").addEventListener("keydown", (event) => { if (event.key === "Enter" && (event.ctrlKey || event.metaKey)) $("read").click(); });
$("files").addEventListener("change", async (event) => { await readFiles([...event.target.files]); event.target.value = ""; });
$("clear").addEventListener("click", () => { items.splice(0); $("cards").replaceChildren(); note(""); changed(); $("paste").focus(); });
$("sample").addEventListener("click", () => {
  const day = (from, to) => new hll.Sketch(12).addMany(Array.from({ length: to - from }, (_, i) => `user ${from + i}`)).toBytes();
  addAll([{ name: "monday", bytes: day(0, 20000) }, { name: "tuesday", bytes: day(10000, 30000) }, { name: "a quiet day", bytes: day(29990, 30010) }]);
});
for (const id of ["bound", "width"]) $(id).addEventListener("change", merge);
for (const id of ["lines", "count-lgk", "skip-empty"]) $(id).addEventListener("input", count);
$("count-to").addEventListener("click", () => { addAll([{ name: "counted lines", bytes: countLines().sketch.toBytes() }]); });
let depth = 0;
for (const kind of ["dragenter", "dragover", "dragleave", "drop"])
  window.addEventListener(kind, (event) => {
    event.preventDefault();
    depth += kind === "dragenter" ? 1 : kind === "dragleave" ? -1 : 0;
    if (kind === "drop") {
      depth = 0;
      if (event.dataTransfer.files.length > 0) readFiles([...event.dataTransfer.files]);
      else if (event.dataTransfer.getData("text")) addAll(ofLines(event.dataTransfer.getData("text")));
    }
    $("drop").classList.toggle("over", depth > 0);
  });
count();
document.body.dataset.ready = "yes";
