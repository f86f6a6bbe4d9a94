#!/usr/bin/env python3
# SPDX-License-Identifier: Apache-2.0
"""Checks the words of pages, documentation and messages against the list scripts/words.txt.

    scripts/wording.py           checks them, and prints 'N passed, M failed' in the end
    scripts/wording.py messages  prints each message with its file and line

There is one test for each kind of text: pages, manual pages, the documentation of each language, and the messages of each
host. What is in backticks and blocks of code is not checked. A message is a literal with a space
in it that the source of a host has outside of comments and documentation; the help of the command `hll` is made of them.
"""
import ast
import pathlib
import re
import sys

ROOT = pathlib.Path(__file__).resolve().parent.parent
PYTHON = ("bindings/python/hll_sketches/*.py",)
C = ("bindings/c/hll.h", "bindings/c/hll_state.h")
CPP = ("bindings/cpp/hll.hpp",)
RUST = ("bindings/rust/src/**/*.rs",)
MESSAGES = {
    "Python": PYTHON,
    "C": (*C, "programs/*.c"),
    "C++": CPP,
    "PostgreSQL": ("bindings/postgresql/*.c", "bindings/postgresql/*.h", "bindings/postgresql/hll_sketches*.sql"),
    "SQLite": ("bindings/sqlite/*.c", "bindings/sqlite/*.h"),
    "Rust": (*RUST, "bindings/rust/build.rs"),
}
DOCUMENTATION = {
    "Rattle": ("crates/*/src/**/*.rt",),
    "Python": PYTHON,
    "C": C,
    "C++": CPP,
    "Rust": RUST,
}
FEWEST = 8
"""Each kind of text has at least this many texts. If fewer are found, the search is wrong."""
BUILT = {"out", "build", "dist", "target", "__pycache__"}

# A comment, which is skipped, or a literal. A single quote begins a character, or a lifetime of Rust.
TOKENS = re.compile(r'/\*.*?\*/|//[^\n]*|\'(?:\\.|[^\'\\\n])\'|"((?:\\.|[^"\\])*)"', re.S)
SQL_TOKENS = re.compile(r"--[^\n]*|'((?:[^']|'')*)'")
BETWEEN = re.compile(r'"\s+"')
COMMENTS = re.compile(r'"(?:\\.|[^"\\])*"|(/\*.*?\*/|//[^\n]*)', re.S)
DOC_LINE = re.compile(r"^\s*//[/!] ?(.*)$", re.M)
CODE = re.compile(r"^```.*?^```$|^    [^\n]*$|`[^`\n]*`|\]\([^)\n]*\)", re.M | re.S)


def files(patterns):
    """The files that match patterns, without what is built."""
    for pattern in patterns:
        for path in sorted(ROOT.glob(pattern)):
            if not BUILT.intersection(path.relative_to(ROOT).parts):
                yield path


def line_at(text, offset):
    return text.count("\n", 0, offset) + 1


def without_code(text):
    """A text in Markdown whose code is blank, with the same lines."""
    return CODE.sub(lambda found: re.sub(r"[^\n]", " ", found[0]), text)


# ---- messages


def texts_of_python(text):
    """The line and the text of each literal, and whether it is documentation: a literal that is a statement."""
    tree = ast.parse(text)
    documentation = {id(node.value) for node in ast.walk(tree) if isinstance(node, ast.Expr)}
    for node in ast.walk(tree):
        if isinstance(node, ast.Constant) and isinstance(node.value, str):
            yield node.lineno, node.value, id(node) in documentation


def literals_of_c(text):
    """The line and the text of each literal of C, C++ or Rust. Literals that follow each other are one."""
    text = BETWEEN.sub(lambda found: "\n" * found[0].count("\n"), text)
    for found in TOKENS.finditer(text):
        if found[1] is not None:
            yield line_at(text, found.start()), found[1]


def literals_of_sql(text):
    """The line and the text of each literal of SQL."""
    for found in SQL_TOKENS.finditer(text):
        if found[1] is not None:
            yield line_at(text, found.start()), found[1]


def messages(host):
    """The file, the line and the text of each message of a host."""
    for path in files(MESSAGES[host]):
        text = path.read_text("utf-8")
        if path.suffix == ".py":
            literals = ((line, message) for line, message, is_documentation in texts_of_python(text) if not is_documentation)
        else:
            literals = literals_of_sql(text) if path.suffix == ".sql" else literals_of_c(text)
        for line, message in literals:
            if " " in message.strip():
                yield path, line, " ".join(message.split())


# ---- documentation and pages


def documentation(language):
    """The file, the line and the text of each part of a language's documentation."""
    for path in files(DOCUMENTATION[language]):
        text = path.read_text("utf-8")
        if path.suffix == ".py":
            parts = ((line, part) for line, part, is_documentation in texts_of_python(text) if is_documentation)
        elif path.suffix in (".h", ".hpp"):
            parts = ((line_at(text, found.start(1)), found[1]) for found in COMMENTS.finditer(text) if found[1])
        else:
            parts = ((line_at(text, found.start(1)), found[1]) for found in DOC_LINE.finditer(text))
        for line, part in parts:
            yield path, line, without_code(part)


PARAGRAPH = {
    ".md": re.compile(r"(?:^.*\S.*\n?)+", re.M),
    ".1": re.compile(r"^.+(?:\n(?!\.(?:Sh|Pp|It)\b).+)*", re.M),
}


def pages(patterns):
    """The file, the line and the text of each paragraph of pages."""
    for path in files(patterns):
        text = path.read_text("utf-8")
        text = without_code(text) if path.suffix == ".md" else text
        for found in PARAGRAPH[path.suffix].finditer(text):
            yield path, line_at(text, found.start()), found[0]


# ---- the list


def words_not_written(kind="pages"):
    """Each phrase that the list rules out in a kind of text, and what is written for it."""
    words, is_read = {}, False
    for line in (ROOT / "scripts" / "words.txt").read_text("utf-8").splitlines():
        if line.startswith("["):
            is_read = line == "[everywhere]" or line == "[pages]" and kind in ("pages", "manual pages")
        elif is_read and " | " in line:
            wanted, phrases = line.split(" | ")
            words.update((phrase.strip(), wanted) for phrase in phrases.split(","))
    return words


def faults(texts, words):
    """What is wrong with texts of one kind."""
    count = 0
    patterns = {phrase: re.compile(rf"\b{re.escape(phrase)}\b".replace(r"\ ", r"\s+"), re.I) for phrase in words}
    for path, line, text in texts:
        count += 1
        for phrase, pattern in patterns.items():
            for found in pattern.finditer(text):
                place = f"{path.relative_to(ROOT)}:{line + text.count(chr(10), 0, found.start())}"
                yield f'{place}: "{" ".join(found[0].split())}": write {words[phrase]}'
    if count < FEWEST:
        yield f"{count} texts were found, and there are more"


def kinds():
    """What is checked: the name of each kind of text, and its texts."""
    yield "pages", pages(("**/*.md",))
    yield "manual pages", pages(("man/*.1",))
    yield from ((f"documentation in {language}", documentation(language)) for language in DOCUMENTATION)
    yield from ((f"messages of {host}", messages(host)) for host in MESSAGES)


def check():
    """How many kinds of text keep to the words of the list, and how many don't."""
    passed, failed = 0, 0
    for kind, texts in kinds():
        found = list(faults(texts, words_not_written(kind)))
        print(*(f"{kind}: {fault}" for fault in found), sep="\n", end="\n" if found else "")
        passed, failed = passed + (not found), failed + bool(found)
    return passed, failed


def main():
    if sys.argv[1:] == ["messages"]:
        for host in MESSAGES:
            for path, line, message in messages(host):
                print(f"{path.relative_to(ROOT)}:{line}: {message}")
        return 0
    if sys.argv[1:]:
        sys.exit("usage: wording.py [messages]")
    passed, failed = check()
    print(f"{passed} passed, {failed} failed")
    return 1 if failed else 0


if __name__ == "__main__":
    sys.exit(main())
