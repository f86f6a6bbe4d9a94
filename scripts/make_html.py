#!/usr/bin/env python3
# SPDX-License-Identifier: Apache-2.0
"""Makes the pages as a static site in dist/html, by pandoc, and checks its links.

    scripts/make_html.py [DIRECTORY]

Each page keeps its path, so README.md becomes index.html, and docs/FORMAT.md becomes docs/FORMAT.html. The navigation has the
shelves of docs/README.md. A link to a page leads to its HTML, and is called as the navigation calls it if its text is the page's
path. Links to other files of the checkout become plain text. The style and the search are in scripts/site/; search.js gets the
index of all sections, so the search needs no server. Contracts and definitions of each crate are pages too (scripts/reference.py), to
which links to the crate's list in surface/ lead. Needs pandoc. The exit status is 1 if a link leads nowhere, or if a page is on
no shelf.
"""
import collections
import html
import html.parser
import json
import os
import pathlib
import re
import shutil
import subprocess
import sys

sys.dont_write_bytecode = True
sys.path.insert(0, str(pathlib.Path(__file__).resolve().parent))
import reference  # noqa: E402
from links import CONTENTS, PATH, ROOT, pages  # noqa: E402

SITE = ROOT / "scripts" / "site"
SHELVES = ROOT / "docs" / "README.md"
# The page that opens images, at the top of the site.
OPENER = "hll.html"
REFERENCE = "Reference"
# The longest word of code that stays in one line.
WHOLE = 36
# Words that say nothing of a section.
COMMON = set("a an and are as at be by for from has have in is it its no not of on or that the then this to was which with".split())
NUMBER = re.compile(r"[-−+<~]?\d[\d,.]*(?: ?(?:%|s|ms|µs|ns|KB|MB|GB))?(?: to \d[\d,.]*)?")

TEMPLATE = """\
<!DOCTYPE html>
<html lang="en" data-top="{top}">
<head><meta charset="utf-8"><meta name="viewport" content="width=device-width, initial-scale=1">
<title>{title}</title><meta name="description" content="{description}">
<link rel="icon" href="{top}icon.svg"><link rel="stylesheet" href="{top}style.css"><script src="{top}search.js" defer></script></head>
<body><a class="skip" href="#main">Skip to the page</a>
<header class="bar"><a href="{top}index.html">Cimbarohe</a>
<div class="find" role="search"><input hidden type="search" placeholder="Search (press /)" aria-label="Search all pages" autocomplete="off"><ol></ol></div></header>
<details class="menu"><summary>All pages</summary><nav class="shelves">{shelves}</nav></details>
<div class="frame">
<div class="pages"><nav class="shelves" aria-label="All pages">{shelves}</nav></div>
<main id="main">
<p class="where">{where}</p>
{body}
{turn}
<footer>{footer}</footer>
</main>
<aside class="contents">{contents}</aside>
</div></body>
</html>
"""
ICON = """\
<svg xmlns="http://www.w3.org/2000/svg" viewBox="0 0 16 16"><rect width="16" height="16" rx="3" fill="#0b5cad"/>\
<path d="M3 13V9h2v4zM7 13V3h2v10zM11 13V6h2v7z" fill="#fff"/></svg>
"""


# ---- shelves


def read_shelves():
    """The shelves of docs/README.md: their names, and pairs of a page's name and the page."""
    shelves = collections.OrderedDict()
    for line in SHELVES.read_text("utf-8").splitlines():
        if line.startswith("## "):
            shelves[line[3:]] = []
        item = re.match(r"- \[([^\]]+)\]\(([^)#]+)\)", line)
        if item:
            list(shelves.values())[-1].append((item[1].replace("`", ""), (SHELVES.parent / item[2]).resolve()))
    return shelves


def is_crate(page):
    return page.parent.parent == ROOT / "crates"


def is_folded(page):
    """Whether the navigation shows a page in a list that is folded: one of a crate."""
    return is_crate(page) or page.suffix == ".txt"


def navigation(page, shelves, targets):
    """The list of all pages, in which this one is marked; crates are folded unless one of them is shown."""
    def entry(name, other):
        here = ' aria-current="page"' if other == page else ""
        return f'<li><a href="{link_to(page, other, targets)}"{here}>{html.escape(name)}</a></li>'

    opener = f'<li><a href="{os.path.relpath(OPENER, targets[page].parent)}">Open an image</a></li>'
    parts = ["<ul>" + entry("Start", ROOT / "README.md") + entry("All pages", SHELVES) + opener + "</ul>"]
    for shelf, entries in shelves.items():
        listed = "".join(entry(*one) for one in entries if not is_folded(one[1]))
        parts.append(f"<p>{shelf}</p>" + (f"<ul>{listed}</ul>" if listed else ""))
        crates = "".join(entry(*one) for one in entries if is_folded(one[1]))
        if crates:
            is_open = any(other == page for _, other in entries if is_folded(other))
            summary = "Contracts by crate" if shelf == REFERENCE else "The crates"
            parts.append(f"<details{' open' if is_open else ''}><summary>{summary}</summary><ul>{crates}</ul></details>")
    return "".join(parts)


def place_of(page, shelves):
    """The shelf of a page, its name there, and its neighbours."""
    for shelf, entries in shelves.items():
        for at, (name, other) in enumerate(entries):
            if other == page:
                return shelf, name, entries[at - 1] if at else None, entries[at + 1] if entries[at + 1 :] else None
    return None, None, None, None


def names_of(shelves):
    named = {other: name for entries in shelves.values() for name, other in entries}
    return {**named, ROOT / "README.md": "Cimbarohe", SHELVES: "All pages"}


def on_no_shelf(shelves):
    named = names_of(shelves)
    return (f"on no shelf of docs/README.md: {page.relative_to(ROOT)}" for page in pages() if page not in named)


# ---- links


def target_of(page):
    """Where a page goes, below the top of the site."""
    path = page.relative_to(ROOT)
    return pathlib.Path("index.html") if path == pathlib.Path("README.md") else path.with_suffix(".html")


def link_to(page, other, targets):
    return os.path.relpath(targets[other], targets[page].parent)


class Links(html.parser.HTMLParser):
    """The links of a page, its pictures and its anchors."""

    def __init__(self, text):
        super().__init__()
        self.found, self.anchors = [], set()
        self.feed(text)

    def handle_starttag(self, tag, attributes):
        named = dict(attributes)
        self.found += [named[name] for name in ("href", "src") if name in named]
        self.anchors.add(named.get("id"))


def with_links(page, text, targets, names):
    """HTML whose links lead to pages of the site; those whose text is a page's path get its name."""

    def link(found):
        path, _, anchor = found[1].partition("#")
        if re.match(r"[a-z]+:", path) or not path:
            return found[0]
        named = (page.parent / path).resolve()
        named = named / "README.md" if (named / "README.md").exists() else named
        if named not in targets:
            return found[2]
        words = re.sub(PATH, names.get(named, ""), found[2]) if named in names and not found[2].startswith("<code>") else found[2]
        return f'<a href="{link_to(page, named, targets)}{"#" + anchor if anchor else ""}">{words}</a>'

    return re.sub(r'<a href="([^"]*)"[^>]*>(.*?)</a>', link, text, flags=re.S)


def dead_links(directory):
    """Each link of the site that leads to no file or anchor of it."""
    sites = {path: Links(path.read_text("utf-8")) for path in directory.rglob("*.html")}
    for path, links in sorted(sites.items()):
        for link in links.found:
            named, _, anchor = link.partition("#")
            if re.match(r"[a-z]+:", named):
                continue
            led = (path.parent / named).resolve() if named else path
            if not led.exists() or anchor and led in sites and anchor not in sites[led].anchors:
                yield f"{path.relative_to(directory)}: {link}"


# ---- what a page looks like


def words_of(text):
    return html.unescape(re.sub(r"<[^>]+>", "", text)).strip()


def with_whole_code(found):
    """Code in a line: short words of it stay whole, and long ones break after a mark."""
    words = []
    for word in found[1].split(" "):
        is_short = len(html.unescape(word)) <= WHOLE
        words.append(f'<span class="w">{word}</span>' if is_short else re.sub(r"(::|[/_.,(=])(?=\w)", r"\1<wbr>", word))
    return f"<code>{' '.join(words)}</code>"


def with_powers(text):
    """2^12 and 2^`lg_k` as powers, outside of code."""
    text = re.sub(r"(\d)\^<code>([^<]*)</code>", r"\1<sup>\2</sup>", text)
    parts = re.split(r"(<pre.*?</pre>|<code.*?</code>|<[^>]+>)", text, flags=re.S)
    parts[::2] = [re.sub(r"(\d)\^(-?\d+|[A-Za-z]\w*)", r"\1<sup>\2</sup>", part) for part in parts[::2]]
    return "".join(parts)


def with_columns(found):
    """A table whose columns of numbers are marked, and those of long strings too."""
    table = re.sub(r"<colgroup>.*?</colgroup>", "", found[0], flags=re.S)
    rows = [re.findall(r"<t[hd][^>]*>(.*?)</t[hd]>", row, re.S) for row in re.findall(r"<tr[^>]*>(.*?)</tr>", table, re.S)]
    kinds = []
    for at, column in enumerate(zip(*rows[1:])):
        texts = [words_of(cell) for cell in column]
        longest = max(map(len, texts), default=0)
        with_unit = re.compile(NUMBER.pattern + r"(?: [a-z]+)?") if at else NUMBER
        is_number = any(texts) and all(with_unit.fullmatch(text) for text in texts if text)
        kinds.append("number" if is_number else "text" if longest > 44 else "name" if longest > 12 else "")

    def cells(row):
        each = iter(kinds + [""] * 40)

        def cell(start):
            kind = next(each)
            return f'<{start[1]} class="{kind}">' if kind else f"<{start[1]}>"

        return re.sub(r"<(t[hd])\b[^>]*>", cell, row[0])

    table = re.sub(r"<tr[^>]*>.*?</tr>", cells, table, flags=re.S)
    table = re.sub(r"(<th[^>]*>)(.*?)(?=</th>)", lambda m: m[1] + re.sub(r"(?<![\w>])(\w+(?:-\w+)+)", r'<span class="w">\1</span>', m[2]), table)
    return f'<div class="wide" tabindex="0">{table}</div>'


def with_anchor(found):
    level, anchor, title = found[1], found[2], found[3]
    return f'<h{level} id="{anchor}">{title}<a class="anchor" href="#{anchor}" aria-label="Link to this section">#</a></h{level}>'


def decorated(text):
    text = with_powers(text)
    parts = re.split(r"(<pre.*?</pre>)", text, flags=re.S)
    parts[::2] = [re.sub(r"<code>(.*?)</code>", with_whole_code, part, flags=re.S) for part in parts[::2]]
    parts[1::2] = [re.sub(r"^(#&gt; .*?)$", r'<span class="out">\1</span>', part, flags=re.M) if 'class="sourceCode' not in part else part
                   for part in parts[1::2]]
    text = "".join(parts)
    text = re.sub(r"<table.*?</table>", with_columns, text, flags=re.S)
    text = re.sub(r'<h([2-4]) id="([^"]+)">(.*?)</h\1>', with_anchor, text, flags=re.S)
    picture = r'<p>(?:<figure>)?<img src="([^"]+)"([^>]*?) ?/?>\s*</p>|<figure>\s*<img src="([^"]+)"([^>]*?) ?/?>.*?</figure>'
    return re.sub(picture, lambda m: f'<div class="picture" tabindex="0"><a href="{m[1] or m[3]}"><img src="{m[1] or m[3]}"{m[2] or m[4]}></a></div>',
                  text, flags=re.S)


def contents_of(text):
    found = re.findall(r'<h2 id="([^"]+)">(.*?)</h2>', text, re.S)
    listed = "".join(f'<li><a href="#{anchor}">{words_of(title)}</a></li>' for anchor, title in found)
    return f"<ul>{listed}</ul>" if len(found) > 1 else ""


def footer_of(page):
    version = ".".join(re.findall(r"^#define HLL_VERSION_[A-Z]+ (\d+)$", (ROOT / "bindings/c/hll.h").read_text("utf-8"), re.M))
    ran = subprocess.run(["git", "log", "-1", "--format=%cs"], cwd=ROOT, capture_output=True, text=True)
    date = f" of {ran.stdout.strip()}" if ran.returncode == 0 else ""
    return f"Cimbarohe {version}, not yet released; pages{date}. Our sources are under the Apache License 2.0; prebuilt/ can't be redistributed yet. Source of this page: {page.relative_to(ROOT)}"


def neighbour(page, side, entry, targets):
    if entry is None:
        return "<span></span>"
    return f'<a href="{link_to(page, entry[1], targets)}"><small>{side}</small>{html.escape(entry[0])}</a>'


def make_page(page, text, targets, shelves, directory):
    """Writes the HTML of a page with this text. Returns its name and its body, as pandoc made it, for the index."""
    source = re.sub(rf"^{re.escape(CONTENTS)}.*\n\n", "", text, flags=re.M)
    words = ["pandoc", "--from", "gfm", "--to", "html5", "--wrap", "preserve"]
    body = subprocess.run(words, input=source, capture_output=True, text=True, check=True).stdout
    shelf, name, before, after = place_of(page, shelves)
    title = words_of(re.search(r"<h1[^>]*>(.*?)</h1>", body, re.S)[1])
    first = re.search(r"<p>((?!<img).*?)</p>", body, re.S)
    contents = contents_of(body)
    text = decorated(with_links(page, body, targets, names_of(shelves)))
    if contents:
        inside = f'</h1>\n<details class="inside"><summary>On this page</summary>{contents}</details>'
        text = text.replace("</h1>", inside, 1)
    target = targets[page]
    made = directory / target
    made.parent.mkdir(parents=True, exist_ok=True)
    top = "../" * (len(target.parts) - 1)
    anchor = "#" + shelf.lower() if shelf and shelf != REFERENCE else ""
    where = f'<a href="{link_to(page, SHELVES, targets)}{anchor}">{shelf or "All pages"}</a>'
    made.write_text(TEMPLATE.format(
        title="Cimbarohe: mergeable counts, proved" if target.name == "index.html" else f"{html.escape(title)} · Cimbarohe",
        description=html.escape(words_of(first[1])[:150] if first else title), top=top, body=text, contents=f"<p>On this page</p>{contents}" if contents else "",
        shelves=navigation(page, shelves, targets), where=where + (f" › {html.escape(name)}" if name else ""), footer=footer_of(page),
        turn=f'<nav class="turn">{neighbour(page, "Before", before, targets)}{neighbour(page, "Next", after, targets)}</nav>' if shelf else ""), "utf-8")
    return title if not name else name, body


# ---- the search


def index_of(bodies, targets):
    """The sections of all pages, and for each word the numbers of the sections that have it, as differences to base 36."""
    sections, words = [], collections.defaultdict(list)
    for page, (name, body) in bodies.items():
        for part in re.split(r"(?=<h[123] id=)", body):
            heading = re.match(r'<h([123]) id="([^"]+)">(.*?)</h\1>', part, re.S)
            if heading is None:
                continue
            link = targets[page].as_posix() + ("" if heading[1] == "1" else f"#{heading[2]}")
            text = re.findall(r"\w\w+", words_of(part).lower())
            found = set(text)
            found |= {piece for word in found for piece in word.split("_") if len(piece) > 1}
            for word in found - COMMON:
                words[word].append(len(sections))
            sections.append([name if heading[1] == "1" else words_of(heading[3]), name, link, len(text)])
    digits = "0123456789abcdefghijklmnopqrstuvwxyz"

    def number(n):
        return (number(n // 36) if n >= 36 else "") + digits[n % 36]

    packed = {word: " ".join(number(b - a) for a, b in zip([0] + at, at)) for word, at in sorted(words.items())}
    return "window.INDEX = " + json.dumps({"sections": sections, "words": packed}, ensure_ascii=False, separators=(",", ":")) + ";\n"


def main():
    if shutil.which("pandoc") is None:
        print("make html needs pandoc: apt-get install pandoc")
        return 2
    directory = pathlib.Path(sys.argv[1] if sys.argv[1:] else ROOT / "dist" / "html").resolve()
    shutil.rmtree(directory, ignore_errors=True)
    directory.mkdir(parents=True)
    targets = {page: target_of(page) for page in pages()}
    for picture in sorted((ROOT / "docs").glob("*.svg")):
        targets[picture] = picture.relative_to(ROOT)
        (directory / "docs").mkdir(exist_ok=True)
        shutil.copy(picture, directory / "docs")
    shelves = {**read_shelves(), REFERENCE: list(reference.lists().items())}
    targets.update((page, pathlib.Path("reference", crate + ".html")) for crate, page in shelves[REFERENCE])
    texts = {page: page.read_text("utf-8") for page in pages()}
    texts.update((page, reference.text_of(crate)) for crate, page in shelves[REFERENCE])
    bodies = {page: make_page(page, text, targets, shelves, directory) for page, text in texts.items()}
    shutil.copy(SITE / "style.css", directory)
    (directory / "icon.svg").write_text(ICON, "utf-8")
    (directory / "search.js").write_text((SITE / "search.js").read_text("utf-8") + index_of(bodies, targets), "utf-8")
    subprocess.run([sys.executable, "-B", ROOT / "bindings/javascript/page/build.py", directory / OPENER], check=True)
    dead = [f"dead link: {one}" for one in dead_links(directory)] + list(on_no_shelf(shelves))
    print(*dead, sep="\n", end="\n" if dead else "")
    print(f"{len(list(directory.rglob('*.html')))} pages in {directory}")
    return 1 if dead else 0


if __name__ == "__main__":
    sys.exit(main())
