// SPDX-License-Identifier: Apache-2.0
// Opens a page in headless Chromium, by its protocol over a pipe.
import { spawn } from "node:child_process";
import fs from "node:fs";
import path from "node:path";

export const sleep = (ms) => new Promise((done) => setTimeout(done, ms));

/** Starts Chromium with a profile in this directory. `send` makes a call of the protocol, whose messages end with a byte 0; `told` gets what comes unasked. */
function started(directory, told) {
  fs.mkdirSync(directory, { recursive: true });
  const profile = fs.mkdtempSync(path.join(directory, "profile-")), waiting = new Map();
  const browser = spawn("chromium", ["--headless=new", "--no-sandbox", "--disable-gpu", "--remote-debugging-pipe", `--user-data-dir=${profile}`, "about:blank"],
    { stdio: ["ignore", "ignore", "ignore", "pipe", "pipe"], detached: true });
  let next = 0, rest = "";
  browser.stdio[4].setEncoding("utf8").on("data", (text) => {
    const messages = (rest + text).split("\0");
    rest = messages.pop();
    for (const message of messages.map((it) => JSON.parse(it))) {
      const { id, method, params, error, result } = message;
      if (!id) {
        told(method, params);
        continue;
      }
      const { done, fail } = waiting.get(id);
      waiting.delete(id);
      if (error) fail(new Error(JSON.stringify(error)));
      else done(result);
    }
  });
  const send = (method, params = {}, sessionId = undefined) => new Promise((done, fail) => {
    waiting.set(++next, { done, fail });
    browser.stdio[3].write(JSON.stringify({ id: next, method, params, sessionId }) + "\0");
  });
  const close = async () => {
    await Promise.race([send("Browser.close").catch(() => {}), sleep(3000)]);
    await sleep(200);
    try { process.kill(-browser.pid, "SIGKILL"); } catch { /* it has ended */ }
    fs.rmSync(profile, { recursive: true, force: true, maxRetries: 5 });
  };
  return { send, close };
}

/** Opens an empty page: `call` makes a call of the protocol for it, `js` runs a script in it, and `wait` waits until one is true. `requests`
 * are the addresses that it asked for, `logs` its errors, and `lines` what it wrote to the console. */
export async function open(directory) {
  const requests = [], logs = [], lines = [];
  const { send, close } = started(directory, (method, params) => {
    if (method === "Network.requestWillBeSent") requests.push(params.request.url.slice(0, 100));
    if (method === "Runtime.exceptionThrown") logs.push(JSON.stringify(params.exceptionDetails).slice(0, 600));
    if (method === "Runtime.consoleAPICalled") lines.push(params.args.map((it) => it.value).join(" "));
    if (method === "Log.entryAdded") logs.push(params.entry.text);
  });
  const { targetId } = await send("Target.createTarget", { url: "about:blank" });
  const { sessionId } = await send("Target.attachToTarget", { targetId, flatten: true });
  const call = (method, params) => send(method, params, sessionId);
  for (const domain of ["Page", "Runtime", "Network", "Log", "DOM"]) await call(domain + ".enable");
  const js = async (expression) => {
    const { exceptionDetails, result } = await call("Runtime.evaluate", { expression, awaitPromise: true, returnByValue: true });
    if (exceptionDetails) throw new Error(JSON.stringify(exceptionDetails));
    return result.value;
  };
  const wait = async (what) => {
    for (let i = 0; i < 400; i++) {
      if (await js(what)) return;
      await sleep(50);
    }
    throw new Error(`${what} ${logs} ${await js("document.body.innerText.slice(0, 3000)")}`);
  };
  return { call, js, wait, requests, logs, lines, close, product: (await send("Browser.getVersion")).product };
}
