// SPDX-License-Identifier: Apache-2.0
// Compares what npm packs with the files that a program can reach, and with the sizes in the README: package.test.mjs PACKAGE DIRECTORY
// PACKAGE is a directory that `stage` made. npm keeps what it needs in DIRECTORY.
import assert from "node:assert/strict";
import { execFileSync } from "node:child_process";
import fs from "node:fs";
import path from "node:path";
import { gzipSync } from "node:zlib";

const [, , staged, out] = process.argv, read = (name) => fs.readFileSync(path.join(staged, name));
let passed = 0;
const same = (found, wanted, what) => { assert.deepEqual(found, wanted, what); passed++; };

// ---- files

const strings = (it) => (typeof it === "string" ? [it] : Object.values(it).flatMap(strings));

/** The files that a file names, by imports and by addresses. Types of a module have its name, and another ending. */
function named(name) {
  if (!/\.[mc](js|ts)$/.test(name)) return [];
  const isTypes = name.includes(".d.");
  const found = [...read(name).toString().matchAll(/(?:\bfrom |\bimport |\bimport\(|\brequire\(|\bnew URL\()"(\.[^"]*)"/g)].map(([, it]) => it);
  return found.map((it) => (isTypes ? it.replace(/\.([mc])js$/, ".d.$1ts") : it));
}

const { exports, main, types, files } = JSON.parse(read("package.json")), reached = new Set(["LICENSE", "NOTICE", "README.md", "package.json"]);
for (const waiting = [main, types, ...strings(exports)]; waiting.length > 0;) {
  const name = path.normalize(waiting.pop());
  if (reached.has(name)) continue;
  reached.add(name);
  waiting.push(...named(name));
}

const npm = (...words) => execFileSync("npm", words, { cwd: staged, encoding: "utf8", env: { ...process.env, npm_config_cache: path.resolve(out, "npm"), npm_config_update_notifier: "false" } });
const packed = JSON.parse(npm("pack", "--dry-run", "--json"))[0].files.map(({ path }) => path).sort();
same(packed, [...reached].sort(), "the files of npm pack are those that can be reached");
same([...files, "package.json"].sort(), packed, "the files that package.json lists are those of npm pack");

// ---- sizes, which may be 5 % off

const kilobytes = (size) => size / 1000;
const rows = [...read("README.md").toString().matchAll(/^\| \w+ \| (`.*) \| ([\d.]+) \| ([\d.]+) \|$/gm)];
same(rows.length, 3, "rows of sizes in the README");
for (const [, names, plain, small] of rows) {
  const contents = [...names.matchAll(/`([^`]+)`/g)].map(([, name]) => read(name));
  const found = [contents.map((it) => it.length), contents.map((it) => gzipSync(it, { level: 9 }).length)].map((sizes) => kilobytes(sizes.reduce((a, b) => a + b)));
  for (const [size, said] of [[found[0], Number(plain)], [found[1], Number(small)]]) {
    assert.ok(Math.abs(size - said) <= 0.05 * size, `${names}: the README says ${said} KB, and there are ${size.toFixed(1)}`);
    passed++;
  }
}
console.log(`${passed} passed, 0 failed`);
