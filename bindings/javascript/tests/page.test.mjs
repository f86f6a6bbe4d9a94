// SPDX-License-Identifier: Apache-2.0
// Opens the page in headless Chromium from file://, without a network, and uses it: page.test.mjs PAGE.html DIRECTORY [open]
// DIRECTORY gets screenshots at 1280 and 400 pixels. With `open` the page is only opened, to see that it asks for nothing.
import assert from "node:assert/strict";
import fs from "node:fs";
import path from "node:path";
import { pathToFileURL } from "node:url";
import { Sketch, Union } from "../build/hll-sketches/node.mjs";
import { open, sleep } from "./chromium.mjs";

const [, , page, out, only] = process.argv, directory = path.resolve(out);
const { call, js, wait, requests, logs, close, product } = await open(directory);

let passed = 0;
const ok = (holds, what) => { assert.ok(holds, what); passed++; };
const same = (found, wanted, what) => { assert.deepEqual(found, wanted, what); passed++; };

async function main() {
  await call("Network.emulateNetworkConditions", { offline: true, latency: 0, downloadThroughput: -1, uploadThroughput: -1 });
  const size = (width, height) => call("Emulation.setDeviceMetricsOverride", { width, height, deviceScaleFactor: 1, mobile: width < 500 });
  const dark = (is) => call("Emulation.setEmulatedMedia", { features: [{ name: "prefers-color-scheme", value: is ? "dark" : "light" }] });
  const shot = async (name) => { fs.writeFileSync(path.join(directory, name), Buffer.from((await call("Page.captureScreenshot", { captureBeyondViewport: true, format: "png" })).data, "base64")); };
  const paste = (text) => js(`document.getElementById("paste").value = ${JSON.stringify(text)}; document.getElementById("read").click()`);
  const text = (selector) => js(`document.querySelector(${JSON.stringify(selector)})?.innerText ?? ""`);
  const clear = () => js(`document.getElementById("clear").click()`);
  const cards = (kind = "") => js(`document.querySelectorAll(".card${kind}").length`);
  const choose = (id, value) => js(`{ const it = document.getElementById("${id}"); it.value = "${value}"; it.dispatchEvent(new Event("change")); }`);
  const click = (within, label) => js(`[...document.querySelectorAll(${JSON.stringify(within + " button")})].find((it) => it.textContent === "${label}").click()`);
  const drop = (name, base64) => js(`{ const d = new DataTransfer(); d.items.add(new File([Uint8Array.from(atob("${base64}"), (c) => c.charCodeAt(0))], "${name}")); document.getElementById("drop").dispatchEvent(new DragEvent("drop", { dataTransfer: d, bubbles: true })); }`);
  const hex = (it) => Buffer.from(it.toBytes()).toString("hex"), base64 = (bytes) => Buffer.from(bytes).toString("base64");
  const strings = (n, prefix = "s") => Array.from({ length: n }, (_, i) => `${prefix}${i}`);

  await size(1280, 900);
  await dark(false);
  await call("Page.navigate", { url: pathToFileURL(path.resolve(page)).href });
  await wait(`document.body?.dataset.ready === "yes"`);
  same(await text("#version"), "0.2.0");
  const quiet = () => {
    same(requests.filter((it) => !/^(file|data|blob):/.test(it)), [], "requests");
    same(logs, [], "errors in the log");
  };
  if (only === "open") {
    await sleep(1000);
    return quiet();
  }

  // an example, and its union
  await js(`document.getElementById("sample").click()`);
  same(await cards(), 3);
  ok(/30,\d\d\d|29,\d\d\d/.test(await text("#union-found .big")), "an estimate of the union");
  ok((await js(`document.querySelectorAll(".card svg .expected").length`)) === 2, "curves of what is expected, for registers");
  await shot("example-1280.png");
  await dark(true);
  await shot("example-1280-dark.png");
  await dark(false);

  // pasted images: hex, base64, one that is rejected, one that is no string of an image
  await clear();
  const a = new Sketch(12, 4).addMany(strings(5000)), b = new Sketch(12, 8).addMany(["x", "y"]);
  await paste([hex(a), "\\x" + hex(b), base64(b.toBytes()), "0201080a030c0008", "hello world!", ""].join("\n"));
  same([await cards(), await cards(".bad")], [5, 2]);
  same(await text(".card.bad .why"), "Rejected: family. The family byte is not 7. At byte 2: the family.");
  same(await text(".card .big"), Math.round(a.estimate()).toLocaleString("en"));
  const union = new Union().add(a).add(b);
  same(await text("#union-found .big"), Math.round(union.estimate()).toLocaleString("en"));
  await click("#union-found", "Hex");
  same(await text("#union-found pre"), hex(union), "the bytes of the union");
  await click("#union-found", "Base64");
  same(await text("#union-found pre"), base64(union.toBytes()), "the same as base64");
  await shot("pasted-1280.png");

  // what is wrong, and at which byte
  const whole = Buffer.from(new Sketch(10).addMany(strings(3000)).toBytes()), broken = (at, value) => { const it = Buffer.from(whole); it[at] = value; return it.toString("hex"); };
  const four = Buffer.from(new Sketch(10, 4).addMany(strings(3000)).toBytes()), nibble = (four[40] & 15) === 15 ? 41 : 40, fours = Buffer.from(four);
  fours[nibble] |= 15;
  const places = [
    [whole.subarray(0, 500).toString("hex"), "truncated", "At byte 500"], [broken(0, 9), "preamble", "At byte 0"], [broken(1, 2), "version", "At byte 1"],
    [broken(3, 22), "lgk", "At byte 3"], [broken(7, 14), "width", "At byte 7"], [broken(36, 1), "count", "At byte 36"], [broken(140, 64), "register", "At byte 140: the register of slot 100 is 64."],
    ["0201070a030802080500000c0500000c", "coupon", "At byte 12: a coupon that comes twice."], ["0201070a0308010800000000", "coupon", "At byte 8: a coupon of value 0."],
    ["0201070a040801080500000c", "lgarr", "At byte 4"], ["0201070a030809080500000c", "count", "At byte 6"], [fours.toString("hex"), "register", `At byte ${nibble}: slot`],
  ];
  for (const [image, reason, place] of places) {
    await clear();
    await paste(image);
    const why = await text(".card.bad .why");
    ok(why.startsWith(`Rejected: ${reason}. `) && why.includes(place), `${reason} ${place}: ${why}`);
  }

  // base64 in lines of 76
  await clear();
  await paste(base64(a.toBytes()).replace(/.{76}/g, "$&\n"));
  same([await cards(), await cards(".bad")], [1, 0], "one image of many lines");

  // different lg_k
  await paste(hex(new Sketch(10).addMany(strings(3000))));
  ok((await text("#union-found")).includes("12 and 10"), "two lg_k are named");
  await choose("bound", 12);
  ok((await text("#union-found .big")) !== "", "with a bound");

  // files, by the chooser and dropped
  const file = (name, bytes) => { fs.writeFileSync(path.join(directory, name), bytes); return path.join(directory, name); };
  const { root } = await call("DOM.getDocument"), { nodeId } = await call("DOM.querySelector", { nodeId: root.nodeId, selector: "#files" });
  await call("DOM.setFileInputFiles", { nodeId, files: [file("good.hll", a.toBytes()), file("cut.hll", a.toBytes().slice(0, 500)), file("lines.txt", hex(b) + "\n" + hex(a) + "\n")] });
  await wait(`document.querySelectorAll(".card").length === 6`);
  ok((await js(`[...document.querySelectorAll(".card.bad .why")].map((it) => it.innerText).join()`)).includes("truncated"), "a file that is cut off");
  await drop("empty.hll", base64(Uint8Array.of(2, 1, 7, 10, 3, 12, 0, 8)));
  await wait(`document.querySelectorAll(".card").length === 7`);

  // what is no image, each as one card: a directory, a file that can't be read, a log; and names that would change the page's lines
  await clear();
  fs.mkdirSync(path.join(directory, "folder"), { recursive: true });
  const log = file("access.log", strings(20000, "2026-11-01 12:00:00 GET /index.html ").join("\n"));
  await call("DOM.setFileInputFiles", { nodeId, files: [log, file("good.hll", a.toBytes()), file("page\u202elh.exe", hex(b))] });
  await wait(`document.querySelectorAll(".card").length === 3`);
  ok((await text(".card.bad .why")).startsWith("Rejected: text. This is no list of images: of its 20,000 lines"), await text(".card.bad .why"));
  same(await js(`[...document.querySelectorAll(".card h3")].map((it) => it.textContent)`), ["access.log", "good.hll", "page\\u{202e}lh.exe"]);
  await js(`{ const d = new DataTransfer(), gone = new File(["x"], "gone\\nestimate: 999.hll"), good = new File([Uint8Array.of(2, 1, 7, 10, 3, 12, 0, 8)], "empty.hll");
    const drop = new DragEvent("drop", { bubbles: true });
    Object.defineProperty(gone, "slice", { value: () => ({ arrayBuffer: () => Promise.reject(new DOMException("gone", "NotFoundError")) }) });
    Object.defineProperty(drop, "dataTransfer", { value: { files: [gone, good], getData: () => "" } });
    document.getElementById("drop").dispatchEvent(drop); }`);
  await wait(`document.querySelectorAll(".card").length === 5`);
  same(await js(`[...document.querySelectorAll(".card h3")].slice(3).map((it) => it.textContent)`), ["gone\\u{a}estimate: 999.hll", "empty.hll"]);
  ok((await js(`[...document.querySelectorAll(".card.bad .why")].at(-1).innerText`)).startsWith("Rejected: file. The browser can't read it (NotFoundError)."), "a file that was removed");
  ok(await js(`document.getElementById("union").compareDocumentPosition(document.getElementById("cards")) === Node.DOCUMENT_POSITION_FOLLOWING`), "the union comes before the cards");
  await clear();
  await call("DOM.setFileInputFiles", { nodeId, files: [path.join(directory, "folder"), file("good.hll", a.toBytes())] });
  await wait(`document.querySelectorAll(".card").length === 2`);
  ok((await text(".card.bad .why")).startsWith("Rejected: file. The browser can't read it"), `a directory: ${await text(".card.bad .why")}`);

  // the files of before again
  await clear();
  await choose("bound", 12);
  await paste([hex(a), hex(new Sketch(10).addMany(strings(3000))), hex(b)].join("\n"));

  // the download
  await call("Browser.setDownloadBehavior", { behavior: "allow", downloadPath: directory });
  await click("#union-found", "Download");
  for (let i = 0; i < 100 && !fs.existsSync(path.join(directory, "union.hll")); i++) await sleep(50);
  const wanted = new Union({ lgMaxK: 12 }).add(a).add(new Sketch(10).addMany(strings(3000))).add(b);
  same(Buffer.from(fs.readFileSync(path.join(directory, "union.hll"))), Buffer.from(wanted.toBytes()), "the download");

  // images that the original crate wrote: with a HIP estimate, at each width; and a report of one
  const originals = fs.readFileSync(new URL("./original.txt", import.meta.url), "latin1").split("\n").filter((line) => /^[0-9a-f]+$/.test(line)), original = originals.at(-1);
  const own = new Sketch(10).addMany(Array.from({ length: 1000 }, (_, i) => i));
  for (const image of originals.slice(1)) {
    await clear();
    await paste(image);
    ok(/HIP estimate\s+1,031 \(not proved\)/.test(await text(".card")), await text(".card"));
    same(await text("#union-found .big"), Math.round(own.estimate()).toLocaleString("en"));
    await choose("width", 8);
    await click("#union-found", "Hex");
    same((await text("#union-found pre")).slice(80), hex(own).slice(80), "the registers");
    await choose("width", 0);
  }
  await click(".card", "Report");
  const report = await text(".card pre");
  for (const line of ["cimbarohe 0.2.0, the page", "byte 5, flags: none (0)", "stage: registers", "estimator fields: set", "HIP estimate: 1031.45"]) ok(report.includes(line), `${line}: ${report}`);
  await shot("original-1280.png");

  // a large image, which a Worker reads; the union of it, too
  await clear();
  await choose("bound", 0);
  const large = new Sketch(21, 8).addMany(Float64Array.from({ length: 400000 }, (_, i) => i / 2));
  fs.writeFileSync(path.join(directory, "large.hll"), large.toBytes());
  await call("DOM.setFileInputFiles", { nodeId, files: [path.join(directory, "large.hll")] });
  await wait(`document.querySelector("#union-found .big")?.innerText === "${Math.round(large.estimate()).toLocaleString("en")}"`);
  same(await text(".card .big"), Math.round(large.estimate()).toLocaleString("en"));
  same(await text("#said"), "1 image read.");
  await clear();
  await js(`document.getElementById("limit").value = "0"`);
  await call("DOM.setFileInputFiles", { nodeId, files: [file("medium.hll", new Sketch(14, 8).addMany(Float64Array.from({ length: 40000 }, (_, i) => i / 2)).toBytes()), path.join(directory, "large.hll")] });
  await wait(`document.querySelectorAll(".card.bad").length === 2`);
  await wait(`document.querySelector(".card.bad .why")?.innerText.startsWith("Rejected: time. Reading took longer than 0 s")`);
  await js(`document.getElementById("limit").value = "10"`);
  passed++;

  // lines
  await clear();
  await js(`{ const l = document.getElementById("lines"); l.value = Array.from({ length: 1000 }, (_, i) => "line " + i % 300).join("\\n") + "\\n\\n"; l.dispatchEvent(new Event("input")); }`);
  ok((await text("#count-found")).startsWith("300 distinct of 1,000 lines"), await text("#count-found"));
  await js(`document.getElementById("count-to").click()`);
  same(await cards(), 1, "the counted lines are an image");

  // the keyboard: Tab reaches every control in order
  const stops = [];
  await js(`document.activeElement.blur()`);
  for (let i = 0; i < 40; i++) {
    for (const type of ["keyDown", "keyUp"]) await call("Input.dispatchKeyEvent", { type, key: "Tab", code: "Tab", windowsVirtualKeyCode: 9 });
    stops.push(await js(`document.activeElement.id || document.activeElement.textContent.slice(0, 20) || document.activeElement.tagName`));
  }
  for (const id of ["paste", "read", "files", "sample", "clear", "limit", "Download", "Hex", "Base64", "Report", "bound", "width", "lines", "count-lgk", "skip-empty", "count-to"]) ok(stops.includes(id), `Tab reaches ${id}: ${stops}`);
  same(await js(`[...document.querySelectorAll("button, input, select, textarea")].filter((it) => !(it.labels?.length || it.textContent.trim() || it.getAttribute("aria-label"))).length`), 0, "controls without a name");

  // narrow
  await paste(["0201080a030c0008", original].join("\n"));
  for (const width of [320, 400]) {
    await size(width, 800);
    ok((await js(`document.documentElement.scrollWidth`)) <= width, `it scrolls sideways: ${await js(`document.documentElement.scrollWidth`)}`);
  }
  await shot("all-400.png");
  await clear();
  await js(`document.getElementById("sample").click()`);
  await dark(true);
  await shot("example-400-dark.png");
  quiet();
}

try {
  await main();
  console.log(product);
  console.log(`${passed} passed, 0 failed`);
} catch (why) {
  console.log(String(why.stack), logs, requests);
  console.log(`${passed} passed, 1 failed`);
  process.exitCode = 1;
} finally {
  await close();
}
process.exit();
