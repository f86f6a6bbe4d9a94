#!/usr/bin/env python3
# SPDX-License-Identifier: Apache-2.0
"""The public surface of the library crates as texts, surface/CRATE.txt.

    scripts/surface.py          writes them
    scripts/surface.py check    compares them with the sources, and prints 'N passed, M failed' at the end

A text has each public name of its crate with its signature and its clauses, and then the definitions of the crate's specs/
that clauses of any crate name, or that such definitions name in turn. So a name that moves, a clause that weakens and a
definition that changes is seen in one diff. Three lists are kept by hand, and every line of them is tried:

    surface/lists/inner.txt     modules and names that are public for crates of this repository alone, and these crates
    surface/lists/memory.txt    each name that can fail with Memory, and the test that makes its allocations fail; `none` and why
    surface/lists/paths.txt     paths that callers write, through re-exports too: each has to lead to a public name
"""
import difflib
import pathlib
import re
import sys

ROOT = pathlib.Path(__file__).resolve().parent.parent
SURFACE = ROOT / "surface"
LISTS = SURFACE / "lists"

# Crates that only measure or test.
OTHERS = re.compile(r"hll_(fakes|vectors)|.*_tests")

# An item that is public, up to its name.
ITEM = re.compile(r"pub (?:const )?(?:unsafe )?(?:extern \"C\" )?(fn|struct|enum|trait|type|const) (\w+)")
BLOCK = re.compile(r"(?:unsafe )?impl\b")
MODULE = re.compile(r"(pub )?mod (\w+);$")
REEXPORT = re.compile(r"pub use ")
GHOST_USE = re.compile(r"ghost use ([^;]+);")
CLAUSE = re.compile(r"(requires|ensures\*?|ghost)\b")
WORD = re.compile(r"[^\s(){}\[\],;.:×→λ∷⊎≡]+")


class Broken(Exception):
    """What these texts cannot be made of."""


# ---- source text


def skipped(text, at):
    """Where what begins at an index and is no code ends: a comment, a string, a character."""
    if text.startswith("//", at):
        end = text.find("\n", at)
        return len(text) if end < 0 else end
    if text[at] == '"':
        at += 1
        while text[at] != '"':
            at += 2 if text[at] == "\\" else 1
        return at + 1
    found = re.match(r"'(?:\\[^']+|[^'\\])'", text[at:at + 12])
    return at + found.end() if found else at


def closed(text, at):
    """The index behind the bracket that closes the one at an index."""
    depth = 0
    while True:
        behind = skipped(text, at)
        if behind > at:
            at = behind
            continue
        depth += (text[at] in "({[") - (text[at] in ")}]")
        at += 1
        if depth == 0:
            return at


def flat(text):
    """A piece of source on one line, without comments."""
    text = re.sub(r"^\s*//.*$", "", text, flags=re.M)
    text = re.sub(r"\s+", " ", text).strip()
    return re.sub(r",? ([)\]])", r"\1", re.sub(r"([(\[]) ", r"\1", text))


def head_end(text, at):
    """Where the head of a function ends: at the brace of its body, or at the semicolon that stands for one."""
    while True:
        behind = skipped(text, at)
        if behind > at:
            at = behind
        elif text[at] in "([":
            at = closed(text, at)
        elif text[at] in "{;":
            return at
        else:
            found = CLAUSE.match(text, at) if not (text[at - 1].isalnum() or text[at - 1] == "_") else None
            if found:
                at = closed(text, text.index("{", at))
            else:
                at += 1


def statement_end(text, at):
    """The index behind the semicolon that ends a statement: not of one inside brackets, as in `[0; 3]`."""
    while text[at] != ";":
        behind = skipped(text, at)
        at = behind if behind > at else closed(text, at) if text[at] in "([{" else at + 1
    return at + 1


def parted(head):
    """The signature of a function, and its clauses."""
    clauses = []
    at = 0
    first = None
    while at < len(head):
        behind = skipped(head, at)
        if behind > at:
            at = behind
            continue
        found = CLAUSE.match(head, at) if at == 0 or not (head[at - 1].isalnum() or head[at - 1] == "_") else None
        if not found:
            at += 1
            continue
        first = at if first is None else first
        end = closed(head, head.index("{", at))
        clauses.append(flat(head[at:end]))
        at = end
    return flat(head[:first] if first is not None else head), clauses


# ---- a crate


class Name:
    """A public name: its path, its signature, its clauses, its comment, and the imports that its clauses may use."""

    def __init__(self, path, signature, clauses, comment, imports):
        self.path, self.signature, self.clauses, self.comment, self.imports = path, signature, clauses, comment, imports

    def may_lack_memory(self):
        """Whether this is a call of which a clause or a comment says so, or one from C that takes an allocator."""
        returns = self.signature.rpartition(" -> ")[2]
        says = "Memory" in " ".join([*self.clauses, self.comment])
        return says and "Result<" in returns or 'extern "C"' in self.signature and "alloc: " in self.signature


def comment_before(text, at):
    """The docstring of the item that begins at an index."""
    lines = []
    for line in reversed(text[:at].rstrip().splitlines()):
        line = line.strip()
        if line.startswith("///"):
            lines.append(line[3:])
        elif not line.startswith("#["):
            break
    return "\n".join(reversed(lines))


def attributes_before(text, at):
    """The derives of the item that begins at an index, which are part of what callers see."""
    return re.findall(r"#\[(derive\w*\([^\]]*\))\]", text[max(text.rfind("\n\n", 0, at), 0):at])


def imported(text):
    """What ghost imports of a text bring in: a name to a file of specs/ and the name there, an alias to the file alone."""
    found = {}
    for path in GHOST_USE.findall(text):
        path = re.sub(r"\s+", " ", path)
        whole = re.match(r"Rattle\.(\w+)\.specs\.([\w.]+)(?:\.\{(.*)\}| as (\w+))$", path)
        if not whole or not whole[1].startswith("hll_"):
            continue
        if whole[4]:
            found[whole[4]] = (whole[1], whole[2], None)
        for name in (whole[3] or "").split(","):
            there, _, here = name.strip().partition(" as ")
            if there:
                found[here or there] = (whole[1], whole[2], there)
    return found


def owner_of(head):
    """The type of an impl, by its head: `Container<A>` of `impl<A: Allocator> Container<A>`."""
    head = re.sub(r"^(unsafe )?impl\s*", "", flat(head))
    if head.startswith("<"):
        depth = 0
        for at, sign in enumerate(head):
            depth += (sign == "<") - (sign == ">" and head[at - 1] != "-")
            if depth == 0:
                head = head[at + 1:].strip()
                break
    return head.split(" where ")[0].strip()


def members(text, start, end, place, owner, imports, are_public):
    """The public names inside a trait or an impl; in a trait or an impl of one, all are public."""
    line = re.compile(r"^    (?:pub (?:const )?|)(fn|const|type) (\w+)", re.M)
    at = start
    while True:
        found = line.search(text, at, end)
        if not found:
            return
        if found[1] == "fn":
            stop = head_end(text, found.end())
            behind = closed(text, stop) if text[stop] == "{" else stop + 1
            signature, clauses = parted(text[found.start():stop])
        else:
            stop = behind = statement_end(text, found.end())
            signature, clauses = flat(text[found.start():stop]), []
        if are_public or flat(text[found.start():stop]).startswith("pub "):
            yield Name("%s::%s::%s" % (place, owner, found[2]), signature, clauses, comment_before(text, found.start()), imports)
        at = behind


def ghosts(text, start, end):
    """The ghost members of a trait or an impl, but its imports."""
    return [flat(it) for it in re.findall(r"^    (ghost (?!use\b)(?:[^;{]|\{(?:[^{}]|\{[^{}]*\})*\})*;)", text[start:end], re.M)]


def names_of(text, place):
    """The public names of a module's text."""
    outer = imported(re.sub(r"^    .*$", "", text, flags=re.M))
    at = 0
    for found in re.finditer(r"^(?=pub |impl\b|unsafe impl\b)", text, re.M):
        start = found.start()
        if start < at or text.startswith("pub(", start):
            continue
        item = ITEM.match(text, start)
        if BLOCK.match(text, start) or (item and item[1] == "trait"):
            brace = head_end(text, start)
            at = closed(text, brace)
            head = flat(text[start:brace])
            imports = {**outer, **imported(text[brace:at])}
            inside = ghosts(text, brace, at)
            is_trait = bool(item)
            owner = item[2] if item else owner_of(head)
            is_of_trait = not is_trait and " for " in owner
            if is_trait or is_of_trait:
                yield Name("%s::%s" % (place, owner), head, inside, "", imports)
            elif inside:
                yield Name("%s::%s" % (place, owner), head, inside, "", imports)
            short = owner if is_of_trait else re.match(r"\w+", owner)[0]
            yield from members(text, brace + 1, at - 1, place, short, imports, is_trait or is_of_trait)
        elif item and item[1] == "fn":
            stop = head_end(text, item.end())
            at = closed(text, stop)
            signature, clauses = parted(text[start:stop])
            yield Name("%s::%s" % (place, item[2]), signature, clauses, comment_before(text, start), outer)
        elif item:
            brace = re.compile(r"[{;]").search(text, start)
            if item[1] in ("type", "const"):
                at = statement_end(text, start)
            else:
                at = closed(text, brace.start()) if brace[0] == "{" else brace.end()
            body = flat(text[start:at])
            if item[1] == "struct":
                body = visible_fields(body)
            yield Name("%s::%s" % (place, item[2]), body, ["#[%s]" % flat(it) for it in attributes_before(text, start)], "", outer)


def visible_fields(struct):
    """A struct with its public fields alone."""
    head, brace, fields = struct.partition("{")
    if not brace:
        return re.sub(r"\((?:(?!pub )[^()])*\)", "(..)", struct)
    kept = re.findall(r"pub \w+: (?:[^,<{]|<[^>]*>)+", fields)
    return "%s{ %s }" % (head, ", ".join([it.strip(" }") for it in kept] + [".."]))


def crates():
    """The product's crates in the order of crates.txt, and whether each is a program."""
    for line in (ROOT / "crates.txt").read_text().splitlines():
        name = re.match(r"(\w+)", line)
        if name and not OTHERS.fullmatch(name[1]):
            main = ROOT / "crates" / name[1] / "src/main.rt"
            yield name[1], main.exists()


def modules(crate, is_program):
    """The modules of a crate: path, text, and whether they are public. A program's all are here, as nobody else sees them."""
    source = ROOT / "crates" / crate / "src"
    root = (source / ("main.rt" if is_program else "lib.rt")).read_text()
    yield crate, root, True
    for line in root.splitlines():
        found = MODULE.match(line)
        if found and found[2] != "tests":
            yield "%s::%s" % (crate, found[2]), (source / (found[2] + ".rt")).read_text(), bool(found[1] or is_program)


def reexports(crate, text):
    """What the root of a crate gives out under names of its own, and the private items among it."""
    source = ROOT / "crates" / crate / "src"
    private = {found[2] for found in map(MODULE.match, text.splitlines()) if found and not found[1]}
    for line in re.findall(r"^pub use [^;]+;", text, re.M):
        line = flat(line)
        yield Name("%s: %s" % (crate, line[8:-1]), line, [], "", {})
        module = line[8:].split("::")[0]
        if module in private:
            wanted = set(re.findall(r"\w+", line.split("::", 1)[1]))
            for name in names_of((source / (module + ".rt")).read_text(), "%s::%s" % (crate, module)):
                if any(part in wanted for part in name.path.split("::")[2:3]):
                    yield name


def surface_of(crate, is_program):
    """All public names of a crate."""
    names = []
    for place, text, is_public in modules(crate, is_program):
        if place == crate:
            names += reexports(crate, text)
        # what a private module gives a public type is public all the same
        names += [name for name in names_of(text, place) if is_public or is_method(name)]
    known = {re.match(r"[\w:]+", name.path)[0].split("::")[-1] for name in names if not is_method(name)}
    return [name for name in names if not is_method(name) or name.path.split("::")[-2] in known]


def is_method(name):
    """Whether a name is that of a function or a constant of a type or a trait."""
    return bool(re.fullmatch(r"\w+::\w+::\w+::\w+", name.path))


# ---- definitions


class Specs:
    """The definitions of a crate's specs/, by file and name, and the names that each file imports."""

    def __init__(self, crate):
        self.texts, self.imports = {}, {}
        for file in sorted((ROOT / "crates" / crate / "specs").glob("*.antt")):
            text = file.read_text()
            self.imports[file.stem] = self.imports_of(text)
            self.texts[file.stem] = self.definitions(text)

    @staticmethod
    def imports_of(text):
        return imported(re.sub(r"^(?:pub )?use (.*)$", r"ghost use \1;", text, flags=re.M))

    @staticmethod
    def definitions(text):
        """Each definition with the equations that follow it, and its constructors or fields by its own name."""
        found, name = {}, None
        for line in text.splitlines():
            head = re.match(r"(?:(?:abbrev|opaque|unfoldable|pub|data|record) )*([^\s:(){}]+)(?: |$).*", line)
            is_head = head and re.match(r"(?:(?:abbrev|opaque|unfoldable|pub|data|record) )+\S|[^\s:(){}]+ : ", line)
            if line.startswith(("--", "use ", "pub use ", "module ")) or not line.strip():
                name = None if line.strip() else name
            elif is_head:
                name = head[1]
                found.setdefault(name, []).append(line)
            elif name:
                found[name].append(line)
        return found


class Cited:
    """The definitions that clauses name, and those that these name in turn."""

    def __init__(self, specs):
        self.specs, self.found = specs, set()
        self.inside = {}                        # constructors, to the data that has them
        for crate, its in specs.items():
            for file, definitions in its.texts.items():
                for name, lines in definitions.items():
                    if re.match(r"(?:pub )?data ", lines[0]):
                        for line in lines[1:]:
                            head = re.match(r"  (\S+)", line)
                            if head:
                                self.inside.setdefault((crate, file, head[1]), name)

    def cite(self, text, imports, own=None):
        """Takes in what a text names: by an import, by an alias and a name, or in its own file."""
        text = re.sub(r'"[^"]*"', "", text)
        for alias, name in re.findall(r"\b(\w+)\.(\w[\w-]*)", text):
            crate, file, whole = imports.get(alias, (None, None, ""))
            if crate and whole is None:
                self.take(crate, file, name)
        for word in WORD.findall(text):
            if word in imports and imports[word][2]:
                self.take(*imports[word])
            elif own and word in self.specs[own[0]].texts[own[1]]:
                self.take(own[0], own[1], word)

    def take(self, crate, file, name):
        """Takes in a definition, and what it names."""
        if crate not in self.specs or file not in self.specs[crate].texts:
            return
        name = self.inside.get((crate, file, name), name)
        lines = self.specs[crate].texts[file].get(name)
        if lines is None or (crate, file, name) in self.found:
            return
        self.found.add((crate, file, name))
        self.cite("\n".join(lines), self.specs[crate].imports[file], (crate, file))


# ---- the lists kept by hand


def listed(file):
    """The lines 'NAME: WORDS' of a list."""
    found = {}
    for line in (LISTS / file).read_text().splitlines():
        if line and not line.startswith("#"):
            name, _, words = line.partition(": ")
            if name in found:
                raise Broken("%s names %s twice" % (file, name))
            found[name] = words
    return found


def tests():
    """The tests of all crates, 'CRATE::FUNCTION'."""
    found = set()
    for file in (ROOT / "crates").glob("*/src/*.rt"):
        text = file.read_text()
        for name in re.findall(r"#\[test\]\s*fn (\w+)", text):
            found.add("%s::%s" % (file.parent.parent.name, name))
    return found


def is_in(path, outer):
    """Whether a path is another one, or inside of it."""
    return path == outer or path.startswith(outer + "::")


def faults_of(names, inner, memory):
    """What is wrong with the two lists."""
    known = tests()
    for name, users in inner.items():
        if not any(is_in(path.path, name) for path in names):
            yield "inner.txt names %s, which is not public" % name
            continue
        for user in users.split(", "):
            sources = (ROOT / "crates" / user / "src").glob("*.rt")
            last = re.match(r"\w+", name.split("::")[-1])[0]
            if not any(re.search(r"\b%s\b" % last, it.read_text()) for it in sources):
                yield "inner.txt says that %s is for %s, which does not name it" % (name, user)
    wanted = {name.path for name in names if name.may_lack_memory()}
    for name in sorted(wanted - set(memory)):
        yield "memory.txt lacks %s, which can fail with Memory" % name
    for name in sorted(set(memory) - wanted):
        yield "memory.txt names %s, which is not public or never fails with Memory" % name
    for name, test in memory.items():
        test = test.split(", ")[0]
        if test == "none":
            continue
        if "/" in test:
            if not (ROOT / test).exists():
                yield "memory.txt says that allocations of %s fail in %s, which is not there" % (name, test)
        elif test not in known:
            yield "memory.txt says that allocations of %s fail in %s, which is not a test" % (name, test)


# ---- paths that callers write


def of_type(path):
    """A path with a method at its type: hll_base::hash::Hasher for MurmurHash3X64128::finish at MurmurHash3X64128::finish."""
    found = re.fullmatch(r"(\w+::\w+)::.+ for (\w+)[^:]*::(\w+)", path)
    return "::".join(found.groups()) if found else path


def uses_of(place, text):
    """What a module's text gives out under other paths: the path here, and the one it stands for."""
    crate = place.split("::")[0]
    for line in re.findall(r"^pub use ([^;]+);", text, re.M):
        path, _, several = flat(line).partition("::{")
        for name in several.rstrip("}").split(", ") if several else [path.split("::")[-1]]:
            whole = path if name == "self" or not several else "%s::%s" % (path, name)
            whole = whole if whole.startswith("hll_") else "%s::%s" % (crate, whole)
            yield "%s::%s" % (place, whole.split("::")[-1]), whole


class Paths:
    """The public names of all crates, by each path that leads to them."""

    def __init__(self, names):
        self.names = {of_type(name.path): name for name in names}
        # a type's methods may be written in any module of its crate
        self.methods = {tuple(path.split("::")[i] for i in (0, 2, 3)): name for path, name in self.names.items() if path.count("::") == 3}
        self.modules, self.uses = set(), {}
        for crate, is_program in crates():
            for place, text, is_public in modules(crate, is_program):
                if is_public:
                    self.modules.add(place)
                    self.uses.update(uses_of(place, text))

    def followed(self, path):
        """A path with each re-export in it replaced by what it stands for."""
        parts = path.split("::")
        for count in range(len(parts), 1, -1):
            whole = self.uses.get("::".join(parts[:count]))
            if whole:
                return self.followed("::".join([whole] + parts[count:]))
        return path

    def named(self, path):
        """The public name that a path leads to, or None."""
        whole = self.followed(path)
        outer, _, last = whole.rpartition("::")
        return self.names.get(whole) or self.methods.get((whole.split("::")[0], outer.split("::")[-1], last))

    def derives(self, path):
        """The traits that a type derives, or that are implemented for it."""
        item = self.named(path)
        derived = re.findall(r"\w+", " ".join(re.findall(r"#\[derive\w*\((.*)\)\]", "\n".join(item.clauses))))
        owner = item.path.rpartition("::")[2]
        return {*derived, *(match[1] for match in (re.search(r"::(\w+)(?:<.*>)? for %s\b(?!.*::)" % owner, path) for path in self.names) if match)}

    def leads(self, path):
        """Whether a path leads to a public module or name, or to a variant or a field of one."""
        whole = self.followed(path)
        if whole == path and "::".join(path.split("::")[:2]) not in self.modules and path.count("::") > 1:
            return False
        if whole in self.modules or whole in self.names:
            return True
        outer, _, last = whole.rpartition("::")
        if outer in self.names and (whole.split("::")[0], outer.split("::")[-1], last) in self.methods:
            return True
        item = self.names.get(outer)
        inside = item and re.match(r"pub (?:enum|struct) .*?\{(.*)\}", item.signature)
        return bool(inside and re.search(r"(?:^|[{,] |pub )%s\b" % last, inside[1].strip()))


def arguments_of(signature):
    """The names of a function's arguments, in their order."""
    inside = re.sub(r"^.*?\bfn \w+(?:<.*?>)?(?=\()", "", signature)
    return ", ".join(re.findall(r"(?:^\(|, )(?:&(?:'\w+ )?)?(?:mut )?(\w+)(?=:|,|\))", inside.partition(") ->")[0] + ")"))


def lost_paths(names):
    """The lines of paths.txt that lead to nothing public, or whose arguments or traits are others."""
    paths = Paths(names)
    lines = (LISTS / "paths.txt").read_text().splitlines()
    for line in (line for line in lines if line and not line.startswith("#")):
        path, arguments, traits = re.fullmatch(r"([\w:]+)(?:\((.*)\)|: (.+))?", line).groups()
        if not paths.leads(path):
            yield "paths.txt names %s, which leads to nothing public" % path
        elif arguments is not None and arguments != arguments_of(paths.named(path).signature):
            yield "paths.txt says %s, but its arguments are (%s)" % (line, arguments_of(paths.named(path).signature))
        elif traits and not set(traits.split(", ")) <= paths.derives(path):
            yield "paths.txt says %s, but it lacks %s" % (line, ", ".join(sorted(set(traits.split(", ")) - paths.derives(path))))


# ---- the texts


def text_of(crate, names, cited, specs, inner, memory):
    lines = ["Public names of %s, with their signatures and clauses (scripts/surface.py)." % crate, ""]
    for name in names:
        if name.signature.startswith("pub use "):
            lines.append(name.signature)
            continue
        lines += [name.path, "    " + name.signature]
        lines += ["        " + clause for clause in name.clauses]
        lines += ["    inner: for " + users for outer, users in inner.items() if is_in(name.path, outer)]
        if name.path in memory:
            lines.append("    failed allocations are tested by: " + memory[name.path])
    shown = sorted((file, name) for owner, file, name in cited if owner == crate)
    if shown:
        lines += ["", "Definitions that clauses name, or that these name."]
    for file in sorted({file for file, _ in shown}):
        lines += ["", "specs/%s.antt" % file]
        for name, body in specs[crate].texts[file].items():
            if (file, name) in shown:
                lines += ["    " + line for line in body]
    return "\n".join(lines) + "\n"


def texts():
    """The text of each crate, how many names there are, and what is wrong with the lists."""
    found = {crate: surface_of(crate, is_program) for crate, is_program in crates()}
    found = {crate: its for crate, its in found.items() if its}
    specs = {crate: Specs(crate) for crate in found}
    cited = Cited(specs)
    names = [name for its in found.values() for name in its]
    for name in names:
        cited.cite("\n".join(name.clauses), name.imports)
    inner, memory = listed("inner.txt"), listed("memory.txt")
    made = {crate: text_of(crate, its, cited.found, specs, inner, memory) for crate, its in found.items()}
    return made, names, [*faults_of(names, inner, memory), *lost_paths(names)]


def main():
    made, names, faults = texts()
    if sys.argv[1:] == ["check"]:
        kept = {file.stem: file.read_text() for file in SURFACE.glob("hll_*.txt")}
        for crate in sorted(set(made) | set(kept)):
            new, old = made.get(crate, ""), kept.get(crate, "")
            if new != old:
                faults.append("surface/%s.txt is not what the sources give" % crate)
                diff = difflib.unified_diff(old.splitlines(), new.splitlines(), "surface/%s.txt" % crate, "the sources", lineterm="", n=1)
                print("\n".join(diff))
        for fault in faults:
            print("FAIL: " + fault)
        print("%d passed, %d failed" % (len(names), len(faults)))
        return 1 if faults else 0
    for crate, text in made.items():
        (SURFACE / (crate + ".txt")).write_text(text)
    for fault in faults:
        print(fault, file=sys.stderr)
    return 1 if faults else 0


if __name__ == "__main__":
    sys.exit(main())
