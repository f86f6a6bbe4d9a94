// SPDX-License-Identifier: Apache-2.0
// Runs each block of the README in this Node, and with `chromium` also in a browser: ways.test.mjs PACKAGE DIRECTORY [chromium]
// A block has the name of its file in its first line, and what it prints in a block after it or a comment: `// 2`. DIRECTORY is made.
import assert from "node:assert/strict";
import { execFileSync } from "node:child_process";
import fs from "node:fs";
import http from "node:http";
import { createRequire } from "node:module";
import os from "node:os";
import path from "node:path";
import { pathToFileURL } from "node:url";
import { open, sleep } from "./chromium.mjs";

const [, , staged, out, browser] = process.argv, directory = path.resolve(out), inside = (...names) => path.join(directory, ...names);
const readme = fs.readFileSync(path.join(staged, "README.md"), "utf8");

let passed = 0;
const same = (found, wanted, what) => { assert.deepEqual(found, wanted, what); passed++; };

// ---- the blocks

const files = {}, printed = {}, commands = [];
let last = "";
for (const [, language, text] of readme.matchAll(/^```(\w+)\n(.*?)^```$/gms)) {
  const name = /^(?:\/\/|<!--) (\S+\.\w+)/.exec(text)?.[1];
  if (language === "sh") commands.push(text);
  else if (language === "text") printed[last] = text;
  else {
    assert.ok(name, `a block has no name of a file: ${text}`);
    files[name] = text;
    printed[name] = [...text.matchAll(/\/\/ (\d+)$/gm)].map(([, line]) => line + "\n").join("");
    last = name;
  }
}
same(Object.keys(files), ["count.mjs", "count.cjs", "inside.mjs", "page.html", "main.mjs", "worker.mjs"], "the files of the README");
same(Object.keys(files).filter((name) => printed[name] === ""), ["worker.mjs"], "a file without what it prints");

fs.mkdirSync(directory, { recursive: true });
for (const [name, text] of Object.entries({ ...files, "package.json": "{}" })) fs.writeFileSync(inside(name), text);
const env = { ...process.env, npm_config_cache: inside("npm"), npm_config_offline: "true", npm_config_audit: "false", npm_config_update_notifier: "false" };
const shell = (text) => execFileSync("sh", ["-ec", text], { cwd: directory, env, stdio: ["ignore", "inherit", "inherit"] });
shell(`npm pack --silent '${path.resolve(staged)}'`);
commands.forEach(shell);
shell("esbuild count.cjs --bundle --outfile=site/required.js"); // a program that requires, for browsers

// ---- in Node

const run = (...words) => execFileSync(process.execPath, words, { cwd: directory, encoding: "utf8" });
for (const name of ["count.mjs", "count.cjs"]) same(run(name), printed[name], name);

// where a bundle is alone, it needs no other file
const alone = fs.mkdtempSync(path.join(os.tmpdir(), "bundle-"));
for (const [bundle, source] of [["out/count.mjs", "count.mjs"], ["out/count.cjs", "count.mjs"], ["site/inside.js", "inside.mjs"]]) {
  const copy = path.join(alone, path.basename(bundle));
  fs.copyFileSync(inside(bundle), copy);
  same(run(copy), printed[source], `the bundle ${bundle}`);
}
fs.rmSync(alone, { recursive: true });

const { resolve } = createRequire(inside("count.cjs"));
for (const name of ["hll-sketches", "hll-sketches/load"]) {
  const there = `import(${JSON.stringify(name)}).then((it) => console.log(it.Sketch === require(${JSON.stringify(name)}).Sketch, it.HllError === require("hll-sketches").HllError))`;
  same(run("-e", there), "true true\n", `${name}, by import and by require`);
}
same(fs.readFileSync(resolve("hll-sketches/hll.wasm")), fs.readFileSync(path.join(staged, "hll.wasm")), "hll-sketches/hll.wasm");

// each file exports what its types say
const typed = (name) => [...fs.readFileSync(path.join(staged, name), "utf8").matchAll(/^export (?:(?:class|const|function) (\w+)|\{ (.*?) \})/gm)].flatMap(([, one, some]) => one ?? some.split(", ")).sort();
const names = async (name) => Object.keys(await import(pathToFileURL(path.join(staged, name)).href)).sort();
same(await names("node.mjs"), typed("hll.d.mts"), "the names of node.mjs");
same(Object.keys(createRequire(import.meta.url)(path.resolve(staged, "hll.cjs"))).sort(), typed("hll.d.cts"), "the names of hll.cjs");
same(await names("load.mjs"), typed("load.d.mts"), "the names of load.mjs");

// ---- in a browser

const TYPES = { ".html": "text/html", ".js": "text/javascript", ".mjs": "text/javascript", ".wasm": "application/wasm" };

/** Returns a server of the files in the directory. */
async function served() {
  const server = http.createServer((request, response) => {
    const file = inside(new URL(request.url, "http://localhost").pathname), isThere = fs.existsSync(file);
    response.writeHead(isThere ? 200 : request.url === "/favicon.ico" ? 204 : 404, { "content-type": TYPES[path.extname(file)] ?? "text/plain" });
    response.end(isThere ? fs.readFileSync(file) : "");
  });
  await new Promise((done) => server.listen(0, "127.0.0.1", done));
  return server;
}

async function inBrowser() {
  const server = await served(), { call, js, wait, logs, lines, close } = await open(inside("shots")), origin = `http://127.0.0.1:${server.address().port}`;
  const opened = async (page) => {
    lines.length = 0;
    await call("Page.navigate", { url: `${origin}/${page}` });
    await wait(`document.readyState === "complete"`);
  };
  const says = async (script, wanted) => {
    fs.writeFileSync(inside("script.html"), `<!doctype html><link rel="icon" href="data:,">${script}`);
    await opened("script.html");
    for (let i = 0; i < 200 && lines.length === 0; i++) await sleep(50);
    same([lines.map((line) => line + "\n").join(""), logs], [wanted, []], script);
  };
  try {
    await says(`<script type="module" src="site/count.js"></script>`, printed["count.mjs"]);
    await says(`<script src="site/inside.js"></script>`, printed["inside.mjs"]);
    await says(`<script src="site/required.js"></script>`, printed["count.cjs"]);
    await says(`<script type="module" src="main.mjs"></script>`, printed["main.mjs"]);
    await opened("page.html");
    await wait(`document.body.innerText !== ""`);
    same([await js("document.body.innerText") + "\n", logs], [printed["page.html"], []], "page.html");
    same(await js(`import("./hll-sketches/hll.mjs").then((it) => Object.keys(it).sort())`), typed("hll.d.mts"), "the names of hll.mjs");
    same(await js(`import("./hll-sketches/load.mjs").then(({ load }) => load(fetch("hll-sketches/hll.wasm"))).then((it) => new it.Sketch().add("ann").estimate())`), 1, "load of a fetch");
    same(await js(`import("./hll-sketches/load.mjs").then(({ load }) => load(fetch("other.wasm"))).catch((why) => why.message)`),
      `hll.wasm can't be loaded: ${origin}/other.wasm has the status 404`, "a module that isn't there");
  } finally {
    await close();
    server.close();
  }
}

if (browser) await inBrowser();
console.log(`${passed} passed, 0 failed`);
process.exit();
