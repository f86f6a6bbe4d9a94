#!/usr/bin/env python3
# SPDX-License-Identifier: Apache-2.0
"""Opens each page of the site in Chromium at 1280 and at 400 pixels, and prints 'N passed, M failed' in the end.

    scripts/overflow.py                             makes the site in a scratch directory, and checks its links too
    scripts/overflow.py DIRECTORY                   the site in DIRECTORY
    scripts/overflow.py DIRECTORY shots OUT PAGE..  writes pictures of pages instead: OUT/PAGE-1280.png and OUT/PAGE-400.png

A page fails at a width if it scrolls sideways, if something in it ends right of its column, with no box around it that scrolls, if
a word of code that should be whole is broken, or if a picture isn't there. A search fails if its first find is another section
than it should be. The pages are served on the loopback while it runs.
"""
import functools
import html
import http.server
import json
import pathlib
import re
import shutil
import subprocess
import sys
import tempfile
import threading

ROOT = pathlib.Path(__file__).resolve().parent.parent
sys.path.insert(0, str(ROOT / "tests"))
from tap import HUNG  # noqa: E402

WIDTHS = (1280, 400)
# What is typed into the search, and what it should find first.
SEARCHES = (("untrusted images", "docs/RECIPES.html#untrusted-images"), ("million keys", "docs/RECIPES.html#a-million-keys"),
            ("order of checks", "docs/FORMAT.html#order-of-checks"), ("install", "docs/INSTALL.html"), ("what no contract says", "docs/PROVED.html#what-no-contract-says"))
PAGE = """<!DOCTYPE html><meta charset="utf-8"><body style="margin:0"><pre id="found">not done</pre><script>
const pages = %s, widths = %s, searches = %s;
function faultsOf(frame, width) {
  const inside = frame.contentDocument, view = frame.contentWindow, faults = [];
  if (inside.documentElement.scrollWidth > width) faults.push("scrolls sideways: " + inside.documentElement.scrollWidth);
  const scrolls = (node) => { for (let n = node.parentElement; n; n = n.parentElement) if (/auto|scroll/.test(view.getComputedStyle(n).overflowX)) return true; return false; };
  const main = inside.querySelector("main"), end = main.getBoundingClientRect().right;
  for (const node of inside.querySelectorAll("body *")) {
    const box = node.getBoundingClientRect();
    if (box.width && box.right > (main.contains(node) ? end : width) + 1 && !scrolls(node)) { faults.push("ends at " + Math.round(box.right) + ": " + node.outerHTML.slice(0, 80)); break; }
  }
  for (const node of inside.querySelectorAll("main code .w")) {
    if (node.getClientRects().length > 1) { faults.push("broken: " + node.textContent); break; }
  }
  for (const node of inside.images) if (!node.naturalWidth) faults.push("no picture: " + node.src);
  return faults;
}
(async () => {
  const found = [];
  for (const width of widths) for (const page of pages) {
    const frame = document.createElement("iframe");
    frame.style.cssText = `width:${width}px;height:900px;border:0`;
    await new Promise((done) => { frame.onload = done; frame.src = "/" + page; document.body.appendChild(frame); });
    found.push([page, width, faultsOf(frame, frame.contentDocument.documentElement.clientWidth)]);
    frame.remove();
  }
  const frame = document.createElement("iframe");
  await new Promise((done) => { frame.onload = done; frame.src = "/docs/NUMBERS.html"; document.body.appendChild(frame); });
  for (const [typed, wanted] of searches) {
    const input = frame.contentDocument.querySelector(".find input");
    input.value = typed;
    input.dispatchEvent(new Event("input"));
    const first = frame.contentDocument.querySelector(".find ol a");
    const link = first ? new URL(first.href).pathname.slice(1) + new URL(first.href).hash : "nothing";
    found.push(["search for " + typed, 0, link === wanted ? [] : ["finds " + link]]);
  }
  document.getElementById("found").textContent = "FOUND" + JSON.stringify(found);
})();
</script>"""


class Server(http.server.SimpleHTTPRequestHandler):
    extra = {}

    def do_GET(self):
        body = self.extra.get(self.path)
        if body is None:
            return super().do_GET()
        self.send_response(200)
        self.send_header("Content-Type", "text/html; charset=utf-8")
        self.end_headers()
        self.wfile.write(body.encode())

    def log_message(self, *_):
        pass


def chromium(*words):
    name = next((name for name in ("chromium", "chromium-browser", "google-chrome") if shutil.which(name)), None)
    if name is None:
        sys.exit("scripts/overflow.py needs chromium: apt-get install chromium")
    with tempfile.TemporaryDirectory() as profile:
        ran = subprocess.run([name, "--headless=new", "--no-sandbox", "--disable-gpu", "--hide-scrollbars", "--no-first-run",
                              f"--user-data-dir={profile}", *words], capture_output=True, text=True, timeout=HUNG)
    return ran.stdout


def serve(directory):
    server = http.server.ThreadingHTTPServer(("127.0.0.1", 0), functools.partial(Server, directory=str(directory)))
    threading.Thread(target=server.serve_forever, daemon=True).start()
    return f"http://127.0.0.1:{server.server_address[1]}"


def check(directory, place):
    pages = sorted(path.relative_to(directory).as_posix() for path in directory.rglob("*.html"))
    Server.extra["/overflow"] = PAGE % (json.dumps(pages), json.dumps(WIDTHS), json.dumps(SEARCHES))
    dom = chromium("--virtual-time-budget=200000", "--dump-dom", place + "/overflow")
    match = re.search(r"FOUND(\[.*?\])</pre>", dom, re.S)
    if match is None:
        print("the pages did not load")
        return 0, 1
    found = json.loads(html.unescape(match[1]))
    for page, width, faults in found:
        print("".join(f"{page}{f' at {width}' if width else ''}: {fault}\n" for fault in faults), end="")
    failed = sum(bool(faults) for _, _, faults in found)
    return len(found) - failed, failed


def shots(out, place, pages):
    out.mkdir(parents=True, exist_ok=True)
    for page in pages:
        name, _, at = page.partition("@")
        for width in WIDTHS:
            address = f"/shot-{width}"
            height, scroll = 1500, int(at or 0)
            Server.extra[address] = (f'<!DOCTYPE html><body style="margin:0"><iframe id="f" src="/{name}" style="width:{width}px;height:{height}px;'
                                     f'border:0;display:block" onload="this.contentWindow.scrollTo(0,{scroll})"></iframe>')
            made = out / f"{name.replace('/', '_').removesuffix('.html')}{'-' + at if at else ''}-{width}.png"
            chromium(f"--window-size={max(width, 500)},{height}", f"--screenshot={made}", "--virtual-time-budget=4000", place + address)
            print(made)


def main():
    if not sys.argv[1:]:
        with tempfile.TemporaryDirectory() as scratch:
            made = subprocess.run([sys.executable, ROOT / "scripts" / "make_html.py", scratch], capture_output=True, text=True)
            print(made.stdout + made.stderr if made.returncode else "", end="")
            passed, failed = check(pathlib.Path(scratch).resolve(), serve(pathlib.Path(scratch).resolve()))
        failed += made.returncode != 0
        print(f"{passed + (made.returncode == 0)} passed, {failed} failed")
        return failed != 0
    directory = pathlib.Path(sys.argv[1]).resolve()
    place = serve(directory)
    if sys.argv[2:3] == ["shots"]:
        shots(pathlib.Path(sys.argv[3]), place, sys.argv[4:])
        return 0
    passed, failed = check(directory, place)
    print(f"{passed} passed, {failed} failed")
    return failed != 0


if __name__ == "__main__":
    sys.exit(main())
