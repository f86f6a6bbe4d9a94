#!/usr/bin/env python3
# SPDX-License-Identifier: Apache-2.0
"""Checks the documents, and prints 'N passed, M failed' in the end.

    scripts/documents.py [names] [words] [commands] [plans]
    scripts/documents.py readme     the commands of README.md alone

names     Files and sections that a page or a source names are there; a block after "From `FILE`:" is in that file; names in
          backticks are in the sources, and on the pages for reviewers are declared there; a clause is one of the function
          that it is said of; commands name programs, parts and options that there are; the speeds in README.md are in
          docs/NUMBERS.md; CITATION.cff has the version of hll.h. Scripts can be executed, as pages call them, and git keeps
          no file that .gitignore leaves out.
words     Pages, documentation and messages keep to the words of scripts/words.txt (scripts/wording.py).
commands  The blocks of README.md run as they are, in a folder without a reader's files, and print what a line `#> ..` after
          them says; so do commands of bindings/c/README.md, SECURITY.md, docs/PLAN.md, docs/PROVED.md and
          docs/OPERATING.md, by tests/scale.py where they need an engine.
plans     The program prints what docs/FAULTS.md says of its plans.

Commands and plans need the programs in bin/ (make -C programs); commands build the library where it is not up to date.
"""
import fnmatch
import functools
import os
import pathlib
import re
import shutil
import subprocess
import sys
import tempfile

sys.dont_write_bytecode = True
sys.path.insert(0, str(pathlib.Path(__file__).resolve().parent))
import wording  # noqa: E402

ROOT = pathlib.Path(__file__).resolve().parent.parent

# On these pages each name in backticks is declared in a crate, but for those that are others'.
DECLARED = {
    "PROVED.md": {"dac8208d650f15bf", "pshufb", "pmaddubsw", "pmaddwd", "hex", "hll", "linked_list_allocator"},
    "MODEL.md": set(),
}
# What the command rt does.
TOOLCHAIN = {"check", "ci", "doc", "lib", "must-fail", "plant", "run", "test", "tidy", "try", "verdict", "version"}
# Names that are not the project's.
KNOWN = {"as_chunks_mut", "current_date", "postgres_fdw", "async_capable", "CURRENT_DATE",
         "hll_sketch_alloc", "get_allocator",      # of datasketches-cpp
         "large_string", "to_parquet",             # of pyarrow and pandas
         "hll_sketch_agg", "stringEncoding", "HLLSketchBuild", "HLLSketchMerge",       # of Spark and Druid
         "DataToSketchUDAF", "HLL_EXPORT", "sketch_hll", "uniqHLL12",      # of Hive, Snowflake, DuckDB and ClickHouse
         "approx_count_distinct",                  # of Spark, DuckDB, Snowflake and others
         "hll_sketch_distinct"}                    # of Apache's extension for PostgreSQL
SKIPPED_FOLDERS = {"out", "build", "dist", ".git", "target", "__pycache__"}
SOURCES = {".rt", ".antt", ".py", ".c", ".h", ".cpp", ".hpp", ".sh", ".sql", ".rs", ".edit", ".map", ".control", ".toml", ".txt", ".plan", ".cmake", ".go", ".mjs", ".mts", ".html", ""}
# These pages speak of another library's names.
OTHERS = {"DIFFERENCES.md", "FAULTS.md", "OTHER_LANGUAGES.md"}
# Not run: the check itself, and what installs packages of a release.
NO_COMMANDS = ("./check", "apt-get")


def files_of_project():
    """All files but what is built."""
    for folder, folders, names in os.walk(ROOT):
        folders[:] = sorted(f for f in folders if f not in SKIPPED_FOLDERS and not (f.startswith(".") and f != ".ci"))
        for name in names:
            yield pathlib.Path(folder) / name


def pages():
    return sorted(path for path in files_of_project() if path.suffix == ".md")


# ---- names


def named_files(text):
    """Paths that a page names: those in one of the project's folders, and pages."""
    folders = r"(?:docs|bindings|bench|crates|debian|examples|man|mutants|packaging|prebuilt|programs|scripts|surface|tests)"
    for match in re.finditer(rf"(?<![\w./-])({folders}/[\w./-]*\w/?)", text):
        yield match.group(1)
    for match in re.finditer(r"\]\(([^)#:]+)\)", text):
        yield match.group(1)
    for match in re.finditer(r"(?<![\w/.-])([A-Z]+\.md)\b", text):
        yield match.group(1)


def is_there(page, name):
    """Whether a path is there in a new checkout, from the top or from the page's own folder. What is built needn't be, nor what
    stands for names."""
    if re.search(r"/(CRATE|NAME)\b", name) or "/build/" in name + "/" or "/out/" in name:
        return True
    places = (ROOT / name, page.parent / name, ROOT / "docs" / name)
    return any(place.exists() and place.resolve() not in ignored_files(ROOT) for place in places)


def listed_by_git(root, *words):
    """The files that `git ls-files` lists; none where this is no checkout of git."""
    if not (root / ".git").exists() or not shutil.which("git"):
        return []
    found = subprocess.run(["git", "ls-files", "-z", *words], cwd=root, capture_output=True, text=True, check=True)
    return [name for name in found.stdout.split("\0") if name]


@functools.lru_cache(maxsize=None)
def ignored_files(root):
    """The files that are here and that .gitignore leaves out, so that a new checkout lacks them."""
    return {(root / name).resolve() for name in listed_by_git(root, "--others", "--ignored", "--exclude-standard")}


def named_sections(text):
    """Pairs of a page and a title, as in: docs/MODEL.md, "Folds"."""
    for match in re.finditer(r'([\w/]+\.md)(?:, | \()"([^"]+)"', text):
        yield match.group(1), match.group(2)


def titles_of(page):
    return {line.lstrip("#").strip().replace("`", "") for line in page.read_text().splitlines() if line.startswith("#")}


def page_named(page, name):
    for place in (ROOT / name, page.parent / name, ROOT / "docs" / name):
        if place.exists():
            return place
    return None


def words_of_sources():
    """Every identifier of the sources, and every name of a file, a folder or a crate."""
    words = set()
    for path in files_of_project():
        words.update(re.findall(r"\w+", path.name))
        words.update(re.findall(r"\w+", str(path.relative_to(ROOT).parent)))
        if path.suffix in SOURCES:
            words.update(re.findall(r"[^\W\d]\w*(?:-\w+)*|\w+", path.read_text(errors="ignore")))
    return words


def patterns_in(text):
    """Names in backticks in which `*` stands for the rest: those of files and folders."""
    return {code for code in re.findall(r"`([^`\n]+)`", text) if re.fullmatch(r"[\w*]*\*[\w*]*", code)}


def names_in(text):
    """Identifiers in backticks that look like names of code: with an underscore, `::`, or capitals inside."""
    own = set(re.findall(r"\w+", " ".join(indented_blocks(text))))
    for code in set(re.findall(r"`([^`\n]+)`", text)) - patterns_in(text):
        for name in re.findall(r"[A-Za-z_][\w]*(?:::[A-Za-z_]\w*)*", code):
            if "::" in name or "_" in name.strip("_") or re.search(r"[a-z][A-Z]", name):
                yield from set(name.split("::")) - own - KNOWN


def faults_of_files(page, text):
    """Files, sections and patterns that a page names, and that are not there."""
    yield from (f"no file {name}" for name in named_files(text) if not is_there(page, name))
    for name, title in named_sections(text):
        other = page_named(page, name)
        if other and title not in titles_of(other):
            yield f'no section "{title}" in {name}'
    stems = {name for path in files_of_project() for name in (path.stem, *path.relative_to(ROOT).parts)}
    for pattern in patterns_in(text):
        if not fnmatch.filter(stems, pattern):
            yield f"no file or folder {pattern}"
    yield from (f"{word} stands for what is to come" for word in re.findall(r"^(?:.*: )?([A-Z]{3,})$", text, re.M))


def comments_of(path):
    """The lines of a source that can name a page: those of its comments, joined as one text."""
    marks = {".rt": "//", ".antt": "--", ".c": r"\*", ".h": r"\*", ".rs": "//", ".cpp": "//", ".hpp": "//", ".mjs": "//", ".mts": "//", ".sql": "--"}.get(path.suffix, "#?")
    return " ".join(re.sub(rf"^\s*(?:{marks}[/!]*)\s?", "", line) for line in path.read_text(errors="ignore").splitlines())


def faults_of_sources():
    """Sections and pages of docs/ that sources name, and that are not there."""
    for path in files_of_project():
        if path.suffix not in SOURCES:
            continue
        text = comments_of(path)
        names = {match.group(1) for match in re.finditer(r"\b(docs/[A-Z]+\.md)\b", text)}
        yield from (f"{path.relative_to(ROOT)}: no file {name}" for name in sorted(names) if not (ROOT / name).exists())
        for name, title in named_sections(text):
            if name.startswith("docs/") and (ROOT / name).exists() and title not in titles_of(ROOT / name):
                yield f'{path.relative_to(ROOT)}: no section "{title}" in {name}'


def faults_of_numbers():
    """Speeds in README.md that docs/NUMBERS.md doesn't have."""
    section = (ROOT / "README.md").read_text().split("\n## How fast\n")[1].split("\n## ")[0]
    known = set(re.findall(r"[\d,.]*\d", (ROOT / "docs" / "NUMBERS.md").read_text()))
    for number in re.findall(r"\d{1,3}(?:,\d{3})+|\d+\.\d+", section):
        if number not in known:
            yield f"README.md: docs/NUMBERS.md doesn't have {number}"


def faults_of_citation():
    """A version of CITATION.cff that is not the library's."""
    version = ".".join(re.findall(r"^#define HLL_VERSION_[A-Z]+ (\d+)$", (ROOT / "bindings/c/hll.h").read_text(), re.M))
    if f"\nversion: {version}\n" not in (ROOT / "CITATION.cff").read_text():
        yield f"CITATION.cff: the version is not {version}"


def faults_of_scripts():
    """Files that begin with `#!`, as commands do, and can't be executed."""
    for path in files_of_project():
        if path.is_file() and not os.access(path, os.X_OK):
            with path.open("rb") as file:
                if file.read(2) == b"#!":
                    yield f"{path.relative_to(ROOT)}: it begins with #! and can't be executed: chmod +x"


def faults_of_ignored_files():
    """Files that git keeps although .gitignore leaves them out; none where this is no checkout of git."""
    for name in listed_by_git(ROOT, "--cached", "--ignored", "--exclude-standard"):
        yield f"{name}: git keeps it, and .gitignore leaves it out: git rm --cached"


def faults_of_quotes(page, text):
    """Blocks that a page quotes from a file, as in: From `crates/..`: and a block; those whose lines the file doesn't have."""
    for name, block in re.findall(r"From `([\w./]+)`:\n\n```\w*\n(.*?)^```$", text, re.M | re.S):
        source = ROOT / name
        if not source.exists() or block not in source.read_text():
            yield f"{name} has other lines than the block that begins: {block.strip().splitlines()[0]}"


# ---- declarations


def sources_of_crates(suffix):
    """The texts of the crates' sources (.rt) or definitions (.antt) by their names, without comments."""
    folder, mark = ("src", "//") if suffix == ".rt" else ("specs", "--")
    for path in sorted((ROOT / "crates").glob(f"*/{folder}/**/*{suffix}")):
        yield path.stem, re.sub(mark + ".*", "", path.read_text())


@functools.lru_cache(None)
def clauses_by_function():
    """The names of clauses of the functions of each name."""
    clauses = {}
    for _, text in sources_of_crates(".rt"):
        function = None
        for name, clause in re.findall(r"\bfn (\w+)|\b(?:ensures|requires) (\w+) \{", text):
            function = name or function
            clauses.setdefault(function, set()).update([clause] if clause else [])
    return clauses


@functools.lru_cache(None)
def declared_names():
    """Names of functions, types, variants, fields, clauses, definitions, modules and crates."""
    names = {path.name for path in (ROOT / "crates").iterdir()}.union(*clauses_by_function().values())
    for stem, text in sources_of_crates(".rt"):
        names.add(stem)
        names.update(re.findall(r"\b(?:fn|struct|enum|trait|type|const|static|mod|ghost) (\w+)", text))
        names.update(re.findall(r"^\s+(?:pub )?(\w+): ", text, re.M))
        names.update(re.findall(r"^\s+([A-Z]\w+)(?:\(|,| =)", text, re.M))
    for stem, text in sources_of_crates(".antt"):
        names.add(stem)
        names.update(re.findall(r"\b(?:data|record) (\w+)", text), re.findall(r"\((\w+) :", text))
        for declared in re.findall(r"^\s*(?:abbrev )?(?:pub )?([\w-]+(?: [\w-]+)*) :", text, re.M):
            names.update(declared.split())
    return names


@functools.lru_cache(None)
def fields_by_record():
    """The names of fields of the records of each name."""
    fields = {}
    for _, text in sources_of_crates(".antt"):
        for name, lines in re.findall(r"\brecord (\w+).*\n((?: .*\n)+)", text):
            fields.setdefault(name, set()).update(re.findall(r"^ +(?:pub )?(\w+) :", lines, re.M))
    return fields


def in_backticks(words):
    return re.findall(r"`(\w+)`", words)


def cited_clauses(text):
    """Pairs of a function, or None, and a clause that is said to be its: as in `f` and `g` (clauses `a`, `b`)."""
    several = r"((?:`[\w:]+`(?:, | and )?)+)"
    for functions, names in re.findall(rf"{several}?(?: \(|)\bclauses? {several}", text):
        of = [code.split("::")[-1] for code in re.findall(r"`([\w:]+)`", functions)] or [None]
        yield from ((function, name) for function in of for name in in_backticks(names))


def cited_laws(text):
    """Laws that a text or a table names: clauses, or functions of one clause."""
    for names in re.findall(r"\blaws? ((?:`\w+`(?:, | and )?)+)", text):
        yield from in_backticks(names)
    for rows in re.findall(r"^\| law \|.*\n\|[-|]+\|\n((?:\|.*\n)+)", text, re.M):
        for row in rows.splitlines():
            yield from in_backticks(row.split("|")[1])


def cited_fields(text):
    """Pairs of a record and a field, as in: `Record`, with `field`."""
    for record, names in re.findall(r"`([A-Z]\w*)`, with ((?:`\w+`(?:, | and )?)+)", text):
        yield from ((record, name) for name in in_backticks(names))


def faults_of_declarations(page, text):
    """Clauses, laws and fields that aren't, and on the pages for reviewers names that no crate declares."""
    clauses = clauses_by_function()
    every = set().union(*clauses.values())
    laws = every.union(filter(None, clauses))
    for function, name in cited_clauses(text):
        if name not in (every if function is None else clauses.get(function, ())):
            yield f"no clause {name} of {function or 'a function'}"
    for record, name in cited_fields(text):
        if name not in fields_by_record().get(record, (name,)):
            yield f"no field {name} of {record}"
    yield from (f"no law {name}" for name in cited_laws(text) if name not in laws)
    if page.name in DECLARED:
        for code in re.findall(r"`([A-Za-z_]\w*(?:::\w+)*)`", text):
            for name in set(code.split("::")) - declared_names() - DECLARED[page.name]:
                yield f"no crate declares {name}"


# ---- commands as they stand


def code_of(text):
    """What stands as code: blocks, and words in backticks."""
    yield from indented_blocks(text)
    yield from re.findall(r"^```.*?\n(.*?)^```$", text, re.M | re.S)
    yield from re.findall(r"`([^`\n]+)`", re.sub(r"^```.*?^```$", "", text, flags=re.M | re.S))


def calls_of(program, code):
    """The words behind a program's name, up to what ends its call."""
    code = code.replace("\\\n", " ")
    for words in re.findall(rf"(?:^|[|;&({{`\"] *|^\$ |do )(?:{program})((?: +[^\s|;&()<>`#]+)*)", code, re.M):
        yield words.split()


@functools.lru_cache(None)
def parsers():
    """The parser of each command of `hll`."""
    sys.path.insert(0, str(ROOT / "bindings" / "python"))
    sys.dont_write_bytecode = True
    from hll_sketches.cli import make_parser

    return make_parser()._subparsers._group_actions[0].choices


def is_placeholder(word):
    return re.fullmatch(r"[A-Z]+(\.\.)?", word) is not None


def faults_of_hll(code):
    for name, *words in filter(None, calls_of(r"hll|python3 -m hll_sketches", code)):
        if is_placeholder(name) or name.startswith("-") or not re.fullmatch(r"[a-z]+", name):
            continue
        if name not in parsers():
            yield f"no command hll {name}"
            continue
        for word in words:
            if word.startswith("-") and word != "-" and word not in parsers()[name]._option_string_actions:
                yield f"no option {word} of hll {name}"


@functools.lru_cache(None)
def targets_of(folder):
    """The targets of a folder's Makefile; those of all of them if no folder is given."""
    if folder is None:
        return set().union(*(targets_of(path.parent) for path in files_of_project() if path.name == "Makefile"))
    makefile = ROOT / folder / "Makefile"
    rules = re.findall(r"^([\w .-]+):", makefile.read_text(), re.M) if makefile.exists() else []
    return set(" ".join(rules).split())


def faults_of_make(code):
    for words in calls_of("make", code):
        at = words.index("-C") if "-C" in words[:-1] else None
        folder = None if at is None else words[at + 1]
        words = words if at is None else words[:at] + words[at + 2 :]
        if not targets_of(folder):
            yield f"no Makefile in {folder}"
        wanted = (word for word in words if not re.match(r"-|\w+=", word))
        yield from (f"no target {word} of make in {folder}" for word in wanted if word not in targets_of(folder))


def faults_of_python(code):
    for name, *words in filter(None, calls_of("python3", code)):
        script = ROOT / name
        if name.endswith(".py") and script.exists():
            text = script.read_text()
            yield from (f"no option {word} of {name}" for word in words if word.startswith("--") and word not in text)
    for module, names in re.findall(r"from (hll_sketches[\w.]*) import ([\w, ]+)", code):
        place = ROOT / "bindings" / "python" / module.replace(".", "/")
        source = place.with_suffix(".py") if place.with_suffix(".py").exists() else place / "__init__.py"
        words = set(re.findall(r"\w+", source.read_text())) if source.exists() else set()
        yield from (f"no {name} in {module}" for name in re.findall(r"\w+", names) if name not in words)


@functools.lru_cache(None)
def parts_of_check():
    """The options of ./check, and its parts."""
    text = (ROOT / "check").read_text()
    named = filter(str.islower, re.findall(r"\w+", re.search(r"^OTHERS=\((.*)\)$", text, re.M)[1]))
    parts = {"proofs", "targets", "crates", "bindings", *named, *(path.parent.name for path in ROOT.glob("bindings/*/check"))}
    return set(re.findall(r"^ +(--[\w-]+)\)", text, re.M)), parts


def has_test(part, word):
    """Whether a folder of bindings/ has a test with this word in its name, as far as its files tell."""
    return any(word in path.stem or word in path.read_text("utf-8", "replace")
               for path in (ROOT / "bindings" / part).rglob("*") if path.is_file() and path.suffix in (".py", ".sh", ".c", ".cpp", ".rs", ".mjs"))


def faults_of_others(code):
    for words in calls_of(r"\./check", code):
        if words[:1] == ["foreign"]:    # a folder of images follows
            continue
        options, parts = parts_of_check()
        part = None
        for word in words:
            if word in parts:
                part = word
            elif word.isupper() or word == "..":
                part = part or word     # what a reader puts there
            elif word.startswith("--"):
                yield from () if word in options else [f"no option {word} of ./check"]
            elif part not in parts or not has_test(part, word):
                yield f"no part {word} of ./check"
    for words in calls_of("rt", code):
        yield from (f"no command rt {word}" for word in words[:1] if word not in TOOLCHAIN)


def faults_of_commands(text, words):
    """What commands name, and isn't there."""
    for code in code_of(text):
        yield from faults_of_hll(code)
        yield from faults_of_make(code)
        yield from faults_of_python(code)
        yield from faults_of_others(code)
        yield from (f"no name {name} in the sources" for name in re.findall(r"\b(?:hll|HLL)_\w+", code) if name not in words)
        option = re.fullmatch(r"--([a-z][\w-]*)( [A-Z]+)?", code)
        if option and option[1] not in words:
            yield f"no option {code} in the sources"


# ---- names of a page


def check_names():
    """One test for each page: what it names is there."""
    words = words_of_sources()
    failed = 0
    for page in pages():
        text = page.read_text()
        faults = {*faults_of_files(page, text), *faults_of_quotes(page, text), *faults_of_declarations(page, text)}
        faults.update(faults_of_commands(text, words))
        if page.name not in OTHERS:
            faults |= {f"no name {name} in the sources" for name in names_in(text) if name not in words}
        for fault in sorted(faults):
            print(f"{page.relative_to(ROOT)}: {fault}")
        failed += bool(faults)
    of_sources = [*faults_of_sources(), *faults_of_numbers(), *faults_of_citation(), *faults_of_scripts(), *faults_of_ignored_files()]
    print("".join(fault + "\n" for fault in of_sources), end="")
    failed += bool(of_sources)
    return len(pages()) + 1 - failed, failed


# ---- commands


def indented_blocks(text):
    """Blocks of indented lines, without the indent; none between fences."""
    text = re.sub(r"^```.*?^```$", "", text, flags=re.M | re.S)
    block = []
    for line in text.splitlines() + ["end"]:
        if line.startswith("    "):
            block.append(line[4:])
        elif line.strip() or not block:
            if block:
                yield "\n".join(block).rstrip()
            block = []
        else:
            block.append("")


def steps_of(block):
    """Pairs of commands and what they print, which lines `#> ..` after them say; None where there are none."""
    parts = re.findall(r"((?:^(?!#> ).*\n)+)((?:^#> .*\n)*)", block + "\n", re.M)
    return [(commands, re.sub("^#> ", "", wanted, flags=re.M) if wanted else None) for commands, wanted in parts]


def make_scratch(folder):
    """A folder that looks like the checkout, and has the command `hll` in a folder of programs; nothing is installed by it."""
    for path in ROOT.iterdir():
        if path.name != ".git":
            (folder / path.name).symlink_to(path)
    (folder / ".bin").mkdir()
    hll = folder / ".bin" / "hll"
    hll.write_text(f'#!/bin/sh\nPYTHONPATH={ROOT}/bindings/python exec {sys.executable} -B -m hll_sketches "$@"\n')
    hll.chmod(0o755)
    (folder / ".bin" / "apt-get").symlink_to(shutil.which("false"))


def run_step(command, wanted, folder, environment):
    """Whether each command of a step ends well, and whether the step prints what it should. The shell has the options of a reader's.
    What the step exports is there for the next one."""
    exported = folder / ".exported"
    script = f"trap 'failed=$?' ERR\n{command}\ntrap - ERR\nenv -u failed -0 > '{exported}'\nexit ${{failed:-0}}"
    ran = subprocess.run(["bash", "-c", script], cwd=folder, capture_output=True, text=True, env=environment)
    if ran.returncode == 0:
        environment.update(line.split("=", 1) for line in exported.read_text().split("\0") if line)
    is_right = ran.returncode == 0 and (wanted is None or ran.stdout == wanted)
    if not is_right:
        print(f"{command}\n  status {ran.returncode}, printed:\n{ran.stdout}{ran.stderr}")
    return is_right


def run_page(name, begin="", before=""):
    """Runs the blocks of a page that begin so, in their order, as a reader who pastes them into a shell; whether each step is
    right. What the page takes as given is made before."""
    with tempfile.TemporaryDirectory() as scratch:
        folder = pathlib.Path(scratch)
        make_scratch(folder)
        environment = dict(os.environ, PATH=os.pathsep.join([str(folder / ".bin"), os.environ["PATH"]]))
        run_step(before, None, folder, environment)
        blocks = [block for block in indented_blocks((ROOT / name).read_text()) if block.startswith(begin)]
        steps = [step for block in blocks if not block.startswith(NO_COMMANDS) for step in steps_of(block)]
        return [run_step(command, wanted, folder, environment) for command, wanted in steps]


def run_scale():
    """Whether each command of docs/OPERATING.md does what it should: those for engines by tests/scale.py, on few files."""
    ran = subprocess.run([sys.executable, ROOT / "tests" / "scale.py", "60"], capture_output=True, text=True)
    counts = re.search(r"^(\d+) passed, (\d+) failed$", ran.stdout, re.M)
    passed, failed = map(int, counts.groups()) if counts else (0, 1)
    if ran.returncode or failed:
        print(f"docs/OPERATING.md\n{ran.stdout}{ran.stderr}")
    return [True] * passed + [False] * failed


def check_commands():
    """One test for each command of the pages for users."""
    results = run_page("README.md") + run_page("bindings/c/README.md", "cat >") + run_page("SECURITY.md", "hll ")
    results += run_page("docs/PLAN.md", ("bin/", "printf ")) + run_page("docs/PROVED.md", "printf ")
    results += run_page("docs/OPERATING.md", ("hll ", "printf "), "mkdir sketches && hll new sketches/1.hll") + run_scale()
    return results.count(True), results.count(False)


def check_readme():
    results = run_page("README.md")
    return results.count(True), results.count(False)


# ---- plans


def plans_of_faults():
    """Pairs of a plan of docs/FAULTS.md and what it says that the program prints."""
    plan, plans = [], []
    for line in (ROOT / "docs" / "FAULTS.md").read_text().splitlines():
        if line.startswith("    "):
            plan.append(line[4:] + "\n")
            continue
        printed = re.match(r"- Here: `([^`]*)`", line)
        if printed:
            plans.append(("".join(plan), printed.group(1)))
            plan = []
    return plans


def check_plans():
    """One test for each plan: the program prints what the page says."""
    failed = 0
    for plan, wanted in plans_of_faults():
        ran = subprocess.run([ROOT / "bin" / "hll_merge"], input=plan, capture_output=True, text=True)
        printed = (ran.stdout + ran.stderr).strip()
        if printed != wanted:
            failed += 1
            print(f"docs/FAULTS.md: {plan}printed {printed}, not {wanted}")
    return len(plans_of_faults()) - failed, failed


def main():
    parts = {"names": check_names, "words": wording.check, "commands": check_commands, "plans": check_plans}
    passed = failed = 0
    for part in sys.argv[1:] or parts:
        more_passed, more_failed = {**parts, "readme": check_readme}[part]()
        print(f"{part}: {more_passed} passed, {more_failed} failed")
        passed, failed = passed + more_passed, failed + more_failed
    print(f"{passed} passed, {failed} failed")
    return failed != 0


if __name__ == "__main__":
    sys.exit(main())
