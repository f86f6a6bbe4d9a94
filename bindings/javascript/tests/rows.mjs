// SPDX-License-Identifier: Apache-2.0
// Carries out the rows of files (docs/PLAN.md, "Rows") by the module's calls, as bindings/c/tests/rows.c does.
import fs from "node:fs";
import { REASONS } from "../core.mjs";
import { open } from "./raw.mjs";
const [, , module, ...files] = process.argv, ROOM = 40 + (5 << 21);
const raw = await open(module);
const hex = (text) => (text.length % 2 === 0 && /^[0-9a-f]*$/i.test(text) ? Buffer.from(text, "hex") : null);
let passed = 0, failed = 0, ran = 0, over = 0;
const check = (holds, ...what) => { if (holds) passed++; else if (failed++ < 20) console.log("failed:", ...what); };

function line(stack, text) {
  const word = text.split(" ")[0];
  if (word === "image") {
    const image = hex(text.slice(6));
    if (image === null) return { status: 200 };
    const { status } = raw.check(image);
    if (status === 0) stack.push(image);
    stack.asRead = true;
    return { status };
  }
  const numbers = text.trim().split(/ +/).slice(1).map(Number), [a = 0, b = 0, c = 0] = numbers;
  if (numbers.length < 1 || numbers.some((n) => !Number.isInteger(n)) || a > 0xffffffff || (!["coupon", "union"].includes(word) && a > 255) || b > 255 || c > 255) return { status: 200 };
  let found, count = 1;
  if (word === "union") { count = Math.min(a, stack.length); found = raw.union(count ? stack.slice(-count) : [], b, c, ROOM); }
  else if (word === "new") { count = 0; found = raw.fresh(a, b); }
  else if (word === "coupon") found = raw.coupon(stack.at(-1), a, b, ROOM);
  else if (word === "fold") found = raw.fold(stack.at(-1), a, ROOM);
  else throw new Error(text);
  if (found.status === 0) { stack.splice(stack.length - count, count, Buffer.from(found.bytes)); stack.asRead = false; }
  return found;
}

function plan(lines) {
  const stack = [];
  stack.asRead = false;
  for (let i = 0; i < lines.length; i++) {
    const text = lines[i].replace(/\r$/, "");
    if (text === "" || text[0] === "#") continue;
    const { status } = line(stack, text);
    if (status !== 0) return { status, number: i + 1, stack };
  }
  return { status: 0, stack };
}

const own = (image) => 4 + 2 * ((image[7] >> 2) & 3);
function row(lines, answer) {
  if (answer[0] === "=" || answer[0] === "+") {
    const { status, stack, number } = plan(lines), plain = hex(answer.slice(2));
    const wanted = Buffer.from(raw.convert(plain, own(plain), ROOM).bytes);
    check(status === 0 && stack.length === 1, "row", answer.slice(0, 40), status, number);
    if (status === 0 && stack.length === 1) {
      const image = stack.asRead ? Buffer.from(raw.convert(stack[0], own(stack[0]), ROOM).bytes) : stack[0];
      check(image.equals(wanted), "bytes", answer.slice(0, 60));
    }
    ran++;
    return;
  }
  const [, at, words] = answer.match(/^! line (\d+): (.*)$/s), isImage = words.startsWith("image ");
  if (!isImage && words !== "range" && words !== "fold") { over++; return; }
  const { status, number } = plan(lines);
  if (status === 200) { over++; return; }
  check(number === Number(at), "rejected in line", number, answer);
  check(REASONS[status] === (isImage ? words.slice(6) : "argument"), REASONS[status], words);
  ran++;
}

for (const file of files) {
  let lines = [], answer = "";
  for (const text of [...fs.readFileSync(file, "latin1").split("\n"), ""]) {
    if (text.startsWith("//")) continue;
    if (text !== "") {
      if ("=+!".includes(text[0])) answer = text;
      else lines.push(...text.replace(/\\([0-9a-f]{2})/gi, (_, d) => String.fromCharCode(parseInt(d, 16))).split("\n"));
    } else if (answer !== "") { row(lines, answer); lines = []; answer = ""; }
  }
}
console.log(`${ran} rows were run, ${over} of the text alone were passed over`);
console.log(`rows in the module: ${passed} passed, ${failed} failed`);
process.exit(failed !== 0 || ran < 1000 ? 1 : 0);
