#!/usr/bin/env python3
# SPDX-License-Identifier: Apache-2.0
"""Makes each mention of a page, or of a section of a page, a link, and checks the links of all pages.

    scripts/links.py          checks, and prints 'N passed, M failed' in the end: one test for each page
    scripts/links.py --write  makes links of mentions, and lists of contents; prints what it couldn't decide
    scripts/links.py --installed DIRECTORY ..
                              lets the pages that were copied to a directory link to each other there. A link to a page or a
                              picture that wasn't copied becomes plain text

A mention is the path of a page, as docs/FORMAT.md, or the title of a section in quotes. A title after a path is one of that
page. Any other is one of the page itself or, if the page has no such section, of a page that the same line names. Blocks of
code are left as they are; so is code in backticks, unless it is the path of a page and nothing else.

The check fails for a page with a mention that is no link; with quoted words that may be a section, which NO_SECTIONS doesn't
decide; with a link to no file or no section; or to which README.md doesn't lead in two steps. It also fails for a page of more
than 1,500 words without a list of its sections. README.md needs no such list. Each question of docs/QUESTIONS.md has to lead to
one or two sections.
"""
import functools
import os
import pathlib
import re
import sys

sys.dont_write_bytecode = True
ROOT = pathlib.Path(__file__).resolve().parent.parent
SKIPPED = {"out", "build", "dist", ".git", "target", "__pycache__", "debian"}
LONG = 1500
QUESTIONS, FEWEST = "docs/QUESTIONS.md", 30
CONTENTS = "**On this page:** "
# Words in quotes that are titles of sections too, but are said of something else: a column, a word, a section of hll.h.
NO_SECTIONS = {
    "bindings/c/README.md": {"What is proved"},  # of hll.h
    "docs/NUMBERS.md": {"SQLite"},  # a column
}

CODE = r"`[^`\n]*`"
PATH = r"(?<![\w./-])(?:(?:[\w-]+/)+README\.md|(?:[\w-]+/)*[A-Z][A-Z_]*\.md)(?![\w/])"
TITLE = rf'"(?:{CODE}|[^"`\n])+"'
LINK = rf"!?\[(?:{CODE}|[^\[\]`])*\]\([^)\s]*\)"
MENTION = re.compile(
    rf"(?P<linked>{LINK})(?P<more>, {TITLE})?|(?P<path>{PATH})(?P<title>, {TITLE})?|(?P<code>{CODE})"
    rf"|(?P<before>{TITLE}) in (?P<after>{PATH})|(?P<quoted>{TITLE})")

# A link, or code in which there is none.
LINK_PARTS = re.compile(rf"!?\[(?P<words>(?:{CODE}|[^\[\]`])*)\]\((?P<path>[^)\s#]*)(?P<anchor>#[^)\s]*)?\)|{CODE}")


@functools.lru_cache(None)
def pages():
    found = []
    for directory, directories, names in os.walk(ROOT):
        directories[:] = sorted(name for name in directories if name not in SKIPPED and not name.startswith("."))
        found += [pathlib.Path(directory) / name for name in names if name.endswith(".md")]
    return sorted(found)


def lines_of(text):
    """Pairs of a line, with its end, and whether it is prose: no line of a block of code."""
    is_fenced = False
    for line in text.splitlines(keepends=True):
        is_fence = line.startswith("```")
        is_fenced ^= is_fence
        yield line, not (is_fence or is_fenced or line.startswith("    "))


def plain(words):
    """Words of Markdown as they are read: without links, backticks and stars."""
    words = re.sub(r"!?\[((?:`[^`]*`|[^\[\]])*)\]\([^)]*\)", r"\1", words)
    return words.replace("`", "").replace("**", "").strip()


def anchor_of(title):
    """The anchor that GitHub makes of a title."""
    return re.sub(r"[^\w\- ]", "", plain(title).lower()).replace(" ", "-")


def headings_in(text):
    """The level, the title and the anchor of each heading; a title that comes again gets a number."""
    counts = {}
    for line, is_prose in lines_of(text):
        match = re.match(r"(#{1,6}) +(.*?) *#*$", line.rstrip("\n"))
        if match and is_prose:
            anchor = anchor_of(match[2])
            again = counts.get(anchor, 0)
            counts[anchor] = again + 1
            yield len(match[1]), match[2], f"{anchor}-{again}" if again else anchor


@functools.lru_cache(None)
def sections_of(page):
    """The anchors of a page's sections by their titles, the first of each title; the title of the page is none."""
    sections = {}
    for level, title, anchor in headings_in(page.read_text("utf-8")):
        if level > 1:
            sections.setdefault(plain(title), anchor)
    return sections


@functools.lru_cache(None)
def anchors_of(page):
    return {anchor for _, _, anchor in headings_in(page.read_text("utf-8"))}


def page_named(page, name):
    """The page of this name, from the top, from the directory of the page that names it, or from docs/; None if there is none."""
    return next((place for place in (ROOT / name, page.parent / name, ROOT / "docs" / name) if place.resolve() in pages()), None)


def link_from(page, other, anchor=""):
    path = "" if other == page and anchor else os.path.relpath(other, page.parent)
    return path + (f"#{anchor}" if anchor else "")


class Linker:
    """Turns the mentions of one page into links. `made` lists these, and `undecided` the mentions that stay as they are, with why."""

    def __init__(self, page):
        self.page = page
        self.made, self.undecided = [], []

    def title_link(self, quoted, previous, named):
        """A quoted title as a link, or as it is. `previous` is the page right before it, and `named` are those of the line."""
        title = plain(quoted.strip('"'))
        if title in NO_SECTIONS.get(str(self.page.relative_to(ROOT)), ()):
            return quoted
        ordered = ([previous] if previous else []) + [self.page] + named
        for other in ordered:
            if title in sections_of(other):
                self.made.append((quoted, other))
                return f"[{quoted}]({link_from(self.page, other, sections_of(other)[title])})"
        if re.match(r"[A-Z]", title) and any(title in sections_of(other) for other in pages()):
            self.undecided.append((quoted, [str(other.relative_to(ROOT)) for other in pages() if title in sections_of(other)]))
        return quoted

    def with_title(self, words, other, quoted, whole):
        """One link for a path and the title after it."""
        title = plain(quoted.lstrip(", ").strip('"'))
        anchor = sections_of(other).get(title)
        if anchor is None:
            self.undecided.append((whole, [f"{other.relative_to(ROOT)} has no such section"]))
            return whole
        self.made.append((whole, other))
        return f"[{words}{quoted}]({link_from(self.page, other, anchor)})"

    def of_link(self, match, named):
        """What is written for a link, with the title after it as part of it, and the page that it leads to."""
        target = re.search(r"\]\(([^)#]*)", match["linked"])[1]
        other = (self.page.parent / target).resolve() if target else None
        other = other if other in pages() else None
        if not match["more"]:
            return match[0], other
        if other is None:
            return match["linked"] + ", " + self.title_link(match["more"][2:], None, named), None
        words = re.match(r"\[(.*)\]\(", match["linked"])[1]
        return self.with_title(words, other, match["more"], match[0]), other

    def of_path(self, match):
        """What is written for the path of a page, or for code, and the page that it names."""
        path = match["path"] or match["code"].strip("`")
        other = page_named(self.page, path) if match["path"] or re.fullmatch(PATH, path) else None
        if other is None and match["path"]:
            self.undecided.append((path, ["no such page"]))
        elif other and match["title"]:
            return self.with_title(path, other, match["title"], match[0]), other
        elif other and other != self.page:
            self.made.append((path, other))
            return f"[{match['path'] or match['code']}]({link_from(self.page, other)})", other
        return match[0], other

    def of_title_in_page(self, match):
        """What is written for a title in a page, as `"Reasons" in docs/FORMAT.md`, and the page."""
        other = page_named(self.page, match["after"])
        title = plain(match["before"].strip('"'))
        if other is None or title not in sections_of(other):
            self.undecided.append((match[0], ["no such section"]))
            return match[0], other
        self.made.append((match[0], other))
        return f"[{match[0]}]({link_from(self.page, other, sections_of(other)[title])})", other

    def line(self, line):
        """A line of prose with links."""
        parts, at, last, named = [], 0, None, []
        for match in MENTION.finditer(line):
            between = line[at : match.start()]
            at = match.end()
            previous = last if re.fullmatch(r"(?: \(|, | and |, and )", between) else None
            if match["linked"]:
                whole, other = self.of_link(match, named)
            elif match["path"] or match["code"]:
                whole, other = self.of_path(match)
            elif match["before"]:
                whole, other = self.of_title_in_page(match)
            else:
                whole, other = self.title_link(match["quoted"], previous, named), previous
            parts += [between, whole]
            last = other
            named += [other] if other else []
        return "".join(parts) + line[at:]

    def text(self, text):
        """A page with links. Headings and the list of contents stay as they are."""
        def is_read(line, is_prose):
            return is_prose and not line.startswith(("#", CONTENTS))

        return "".join(self.line(line) if is_read(line, is_prose) else line for line, is_prose in lines_of(text))


def with_contents(page, text):
    """A page with the list of its sections before the first, if it is long; without one if it isn't."""
    text = re.sub(rf"^{re.escape(CONTENTS)}.*\n\n", "", text, flags=re.M)
    sections = [(title, anchor) for level, title, anchor in headings_in(text) if level == 2]
    if len(plain(text).split()) <= LONG or len(sections) < 3 or page == ROOT / "README.md":
        return text
    listed = " · ".join(f"[{title}](#{anchor})" for title, anchor in sections)
    before, heading, after = text.partition("\n## ")
    return f"{before}\n{CONTENTS}{listed}\n{heading}{after}"


def links_in(text):
    for line, is_prose in lines_of(text):
        if is_prose:
            parts = (match["path"] is not None and match["path"] + (match["anchor"] or "") for match in LINK_PARTS.finditer(line))
            yield from filter(None, parts)


def dead_links(page, text):
    for link in links_in(text):
        path, _, anchor = link.partition("#")
        if re.match(r"[a-z]+:", path):
            continue
        other = (page.parent / path).resolve() if path else page
        if not other.exists():
            yield f"no file {link}"
        elif anchor and (other not in pages() or anchor not in anchors_of(other)):
            yield f"no section {link}"


# ---- pages in packages


def installed_text(page, file, there):
    """The text of a page for the file to which it was copied. `there` has the files of the pages that were copied."""

    def link(match):
        if not match["path"] or re.match(r"[a-z]+:", match["path"]):
            return match[0]
        other = there.get((page.parent / match["path"]).resolve())
        anchor = match["anchor"] or ""
        return f"[{match['words']}]({os.path.relpath(other, file.parent)}{anchor})" if other else match["words"]

    lines = lines_of(page.read_text("utf-8"))
    return "".join(LINK_PARTS.sub(link, line) if is_prose else line for line, is_prose in lines)


def install(directory):
    """Changes the links of the pages that were copied to a directory."""
    originals = {page.read_bytes(): page for page in pages()}
    files = sorted(path for path in pathlib.Path(directory).resolve().rglob("*.md") if path.is_file())
    copied = {originals[file.read_bytes()]: file for file in files if file.read_bytes() in originals}
    for page, file in copied.items():
        file.write_text(installed_text(page, file, copied), "utf-8")


def dead_in(files):
    """Links of pages that lead to none of these files: texts by their paths, of which some may be compressed."""
    names = {re.sub(r"\.gz$", "", name) for name in files}
    for name, text in sorted(files.items()):
        for link in links_in(text):
            path = link.partition("#")[0]
            if path and not re.match(r"[a-z]+:", path) and os.path.normpath(os.path.join(os.path.dirname(name), path)) not in names:
                yield f"{name}: {link}"


# ---- the check


def faults_of_questions(text):
    """Questions of a page, rows of its tables, that don't lead to one or two sections; and whether there are too few."""
    rows = re.findall(r"^\| ([^|]*\?) \|(.*)\|$", text, re.M)
    for question, more in rows:
        sections = re.findall(r"\]\([^)\s]*#[^)\s]+\)", more)
        if not 1 <= len(sections) <= 2:
            yield f"leads to {len(sections)} sections, not to one or two: {question}"
    if len(rows) < FEWEST:
        yield f"{len(rows)} questions, and there were {FEWEST}"


def reached(steps):
    """The pages to which README.md leads in this number of steps."""
    found = {ROOT / "README.md"}
    for _ in range(steps):
        for page in list(found):
            named = ((page.parent / link.partition("#")[0]).resolve() for link in links_in(page.read_text("utf-8")))
            found |= {other for other in named if other in pages()}
    return found


def faults_of(page, near):
    text = page.read_text("utf-8")
    linker = Linker(page)
    linker.text(text)
    yield from (f"no link: {words}" for words, _ in linker.made)
    yield from (f"not decided: {words} ({', '.join(why)})" for words, why in linker.undecided)
    yield from dead_links(page, text)
    if with_contents(page, text) != text:
        yield "the list of contents is not that of the sections"
    if page == ROOT / QUESTIONS:
        yield from faults_of_questions(text)
    if page not in near:
        yield "README.md doesn't lead here in two steps"


def check():
    failed, near = 0, reached(2)
    for page in pages():
        faults = list(faults_of(page, near))
        print("".join(f"{page.relative_to(ROOT)}: {fault}\n" for fault in faults), end="")
        failed += bool(faults)
    return len(pages()) - failed, failed


def write():
    made = 0
    for page in pages():
        linker = Linker(page)
        text = page.read_text("utf-8")
        changed = with_contents(page, linker.text(text))
        if changed != text:
            page.write_text(changed, "utf-8")
        made += len(linker.made)
        print(f"{page.relative_to(ROOT)}: {len(linker.made)} mentions became links")
        for words, why in linker.undecided:
            print(f"  not decided: {words} ({', '.join(why)})")
    print(f"{made} mentions became links")


def main():
    if sys.argv[1:] == ["--write"]:
        write()
        return 0
    if sys.argv[1:2] == ["--installed"]:
        for directory in sys.argv[2:]:
            install(directory)
        return 0
    passed, failed = check()
    print(f"{passed} passed, {failed} failed")
    return failed != 0


if __name__ == "__main__":
    sys.exit(main())
