# SPDX-License-Identifier: Apache-2.0
"""Pages of the site that are made from the sources: for each crate its public names with their contracts, from surface/, and its
definitions with their comments, from specs/. scripts/make_html.py shows them; they are in no checkout."""
import pathlib
import re

ROOT = pathlib.Path(__file__).resolve().parent.parent


def lists():
    """The list of public names of each crate, by the crate's name."""
    return {path.stem: path for path in sorted((ROOT / "surface").glob("*.txt"))}


def fenced(lines):
    return "```rust\n" + "\n".join(lines) + "\n```\n"


def names_in(text):
    """The parts of a list of public names: a heading for each name, and below it what the list says, as code."""
    lines = text.splitlines()[1:]
    at = [number for number, line in enumerate(lines) if line and not line.startswith(" ")] + [len(lines)]
    for begin, end in zip(at, at[1:]):
        said = [line[4:] for line in lines[begin + 1 : end] if line.strip()]
        if said:
            yield f"### `{lines[begin]}`\n\n{fenced(said)}"
        else:
            yield fenced([lines[begin]])


def plain(words):
    """Words that are no Markdown, as Markdown."""
    return re.sub(r"([\\`*_<>#|\[\]])", r"\\\1", words)


def definitions_in(text):
    """The parts of a file of definitions: comments as text, and the rest as code. Neither the licence nor imports are shown."""
    for block in re.split(r"\n\s*\n", text):
        lines = [line for line in block.splitlines() if not re.match(r"-- SPDX|use ", line)]
        comment = [line.lstrip("- ") for line in lines if line.startswith("--")]
        code = [line for line in lines if not line.startswith("--")]
        if comment:
            yield plain(" ".join(comment)) + "\n"
        if code:
            yield fenced(code)


def text_of(crate):
    """The page of a crate, in Markdown."""
    parts = [f"# Contracts of {crate}\n", f"Made from surface/{crate}.txt and crates/{crate}/specs.\n", "## Public names\n"]
    parts += names_in(lists()[crate].read_text("utf-8"))
    files = sorted((ROOT / "crates" / crate / "specs").rglob("*.antt"))
    parts += ["## Definitions\n"] if files else []
    for file in files:
        parts += [f"### `{file.name}`\n", *definitions_in(file.read_text("utf-8"))]
    return "\n".join(parts)
