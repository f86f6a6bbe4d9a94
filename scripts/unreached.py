#!/usr/bin/env python3
# SPDX-License-Identifier: Apache-2.0
"""Finds functions that no program and no call of C reaches, and lemmas and definitions that no contract and no proof term reaches.

    scripts/unreached.py [check]    prints both, and the names of surface/lists/port.txt that are reached or gone; the last line
                                    is 'N passed, M failed'

Functions. The product's crates are read, without their modules of tests. Reached are what C exports, `main` of a program, the
laws (functions with clauses that do nothing), and methods of traits from outside the crates; and what the body of a reached
function names. A call of a method reaches the methods of this name of its receiver's type, if the source names that type
(scripts/modules.py), and else of all types. So a function can be missed here, but one that is printed has no caller.
surface/lists/port.txt lists the functions that are kept without a caller, for callers in Rattle; what these call is reached, too.

Lemmas and definitions. Reached is what a source, a proof term or a file of test vectors (named ..Rows or ..Vectors) imports and
names; operators; and what reached ones name in turn.
"""
import collections
import pathlib
import re
import sys

sys.dont_write_bytecode = True
sys.path.insert(0, str(pathlib.Path(__file__).resolve().parent))
import modules  # noqa: E402
import surface  # noqa: E402

ROOT = pathlib.Path(__file__).resolve().parent.parent
PORT = pathlib.Path("surface", "lists", "port.txt")
EXAMPLE = "hll_caller"
"""A crate that shows how to call the library: what it calls is not reached by that."""

Function = collections.namedtuple("Function", "crate module owner trait name line is_root body head")
"""A function: `owner` is its type or trait, or "" for none, and `trait` the trait of the crates that it implements or is part of."""


def path_of(function):
    """Returns the path of a function."""
    return "::".join(filter(None, (function.crate, function.module, function.owner, function.name)))


# ---- functions of a source


def without_comments(text):
    """Returns a source without comments and strings; its lines stay where they are."""
    return modules.NO_CODE.sub(lambda it: '""' if it[0].startswith('"') else "", text)


def without_clauses(body):
    """Returns the body of a function without invariants and other ghost blocks, which name what is not called."""
    at = 0
    kept = []
    for found in re.finditer(r"\b(?:invariant|ghost|decreases|proof)\b[^{};]*\{", body):
        if found.start() >= at:
            kept.append(body[at : found.start()])
            at = surface.closed(body, found.end() - 1)
    return "".join([*kept, body[at:]])


def blocks_of(text):
    """Yields each `impl` and `trait` of a source: where it begins and ends, its type or trait, and the trait that it implements."""
    for found in re.finditer(r"(?m)^(?:pub(?:\([\w ]+\))? )?(?:unsafe )?(impl|trait)\b", text):
        brace = surface.head_end(text, found.end())
        head = surface.flat(text[found.end() : brace])
        implemented = re.search(r"(?:^|> )([\w:]+)(?:<.*>)? for ", head) if found[1] == "impl" else None
        owner = modules.subject_of(head) if found[1] == "impl" else re.match(r"\w+", head)[0]
        yield found.start(), surface.closed(text, brace), owner, implemented[1].split("::")[-1] if implemented else ""


def functions_of(crate, module, text, traits):
    """Returns the functions of a source, and the source without them. `traits` are those of the crates."""
    blocks, found, rest, at = list(blocks_of(text)), [], [], 0
    for head in re.finditer(r"\bfn (\w+)", text):
        if head.start() < at:
            continue        # a function inside another one is part of it
        stop = surface.head_end(text, head.end())
        end = surface.closed(text, stop) if text[stop] == "{" else stop + 1
        owner, trait = next((block[2:] for block in blocks if block[0] < head.start() < block[1]), ("", ""))
        trait = owner if owner in traits else trait
        line = text[text.rfind("\n", 0, head.start()) + 1 : head.start()]
        body = without_clauses(text[stop:end]).replace("..", " .. ")
        is_law = "ensures" in text[head.start() : stop] and not body.strip("{} \n")
        is_root = is_law or 'extern ""' in line or (module, head[1]) == ("main", "main") or bool(trait) and trait not in traits
        number = text.count("\n", 0, head.start()) + 1
        found.append(Function(crate, module, owner, trait, head[1], number, is_root, body, text[head.start() : stop]))
        rest.append(text[at : head.start()])
        at = end
    return found, "".join([*rest, text[at:]])


def sources():
    """Yields the modules of the product's crates, without tests: crate, name and text."""
    for crate, is_program in ((crate, is_program) for crate, is_program in surface.crates() if crate != EXAMPLE):
        for place, text, _ in surface.modules(crate, is_program):
            module = place.partition("::")[2] or ("main" if is_program else "lib")
            if not module.endswith("tests"):
                yield crate, module, without_comments(text)


def imported_in(text):
    """Returns the words of a module's imports: names of crates, modules and what they have."""
    return set(re.findall(r"\w+", " ".join(re.findall(r"(?m)^\s*(?:pub )?use ([^;]*);", text))))


class Functions:
    """The functions of all crates, and which one names which."""

    def __init__(self):
        texts = collections.defaultdict(dict)
        for crate, module, text in sources():
            texts[crate][module] = text
        traits = {name for its in texts.values() for text in its.values() for name in re.findall(r"(?m)^(?:pub )?trait (\w+)", text)}
        self.types = {crate: modules.types_of(its) for crate, its in texts.items()}
        self.all, self.rests, self.imported, self.named = [], [], {}, {}
        for crate, its in texts.items():
            for module, text in its.items():
                found, rest = functions_of(crate, module, text, traits)
                self.all += found
                self.rests.append(Function(crate, module, "", "", "", 0, True, re.sub(r"(?m)^(?:pub )?use [^;]*;", "", rest), ""))
                self.imported[crate, module] = imported_in(text)
        self.by_name, self.by_owner, self.by_module = (collections.defaultdict(list) for _ in range(3))
        for it in self.all:
            self.by_name[bool(it.owner), it.name].append(it)
            if it.owner:
                self.by_owner[it.owner, it.name].append(it)
            self.by_module[it.module, it.name].append(it)

    def by_paths(self, function):
        """Yields what a function names after `::`: methods of types and of type parameters, and functions of modules."""
        for of, name in re.findall(r"(\w+|>)(?:::<[^>]*>)?::(\w+)", function.body):
            of = function.owner if of == "Self" else of
            if (of, name) in self.by_owner:
                yield from self.by_owner[of, name]
            elif of == ">" or re.fullmatch(r"[A-Z]\w?", of) or of == function.owner:
                yield from self.by_name[True, name]
            else:
                yield from (it for it in self.by_module.get((of, name), ()) if not it.owner)
                yield from (it for it in self.by_name[False, name] if of in ("crate", "super", "self", it.crate))

    def by_receivers(self, function):
        """Yields the methods that a function calls on values."""
        called = collections.Counter(re.findall(r"\.(\w+)(?:::<[^>]*>)?\(", function.body))
        lines = [function.head, function.head, *function.body.splitlines()]
        for of, method in modules.calls_of(lines, function.owner, self.types[function.crate]):
            if (of, method) in self.by_owner:
                called[method] -= 1
                yield from self.by_owner[of, method]
        for method, times in called.items():
            if times > 0:
                yield from self.by_name[True, method]

    def by_bare_names(self, function):
        """Yields the functions without a type that a function names: of its module, or imported."""
        imported = self.imported[function.crate, function.module]
        for name in set(re.findall(r"(?<![.\w:])(\w+)\b(?!::\w)", function.body)):
            for it in self.by_name.get((False, name), ()):
                is_here = (it.crate, it.module) == (function.crate, function.module)
                if is_here or name in imported and {it.module, it.crate} & imported:
                    yield it

    def with_traits(self, functions):
        """Returns functions and, for each that is of a trait, the same method of the trait and of all types that implement it."""
        found = set(functions)
        return found.union(it for one in found if one.trait for it in self.by_name[True, one.name] if it.trait == one.trait)

    def named_by(self, function):
        """Returns the functions that a function names."""
        if function not in self.named:
            self.named[function] = self.with_traits([*self.by_paths(function), *self.by_receivers(function), *self.by_bare_names(function)])
        return self.named[function]

    def reached(self, kept=()):
        """Returns the functions that are reached: from what is called from outside, and from functions with the paths `kept`."""
        found = {*self.rests, *self.with_traits(it for it in self.all if it.is_root or path_of(it) in kept)}
        ends = list(found)
        while ends:
            new = self.named_by(ends.pop()) - found
            found |= new
            ends += new
        return found


def kept_functions():
    """Returns the paths of the list of functions that are kept."""
    path = ROOT / PORT
    lines = path.read_text("utf-8").splitlines() if path.exists() else []
    return [line for line in lines if line and not line.startswith("#")]


def faults_of_functions(functions, kept):
    """What is wrong with functions, and with the list of those that are kept."""
    reached, paths = functions.reached(kept), {path_of(it) for it in functions.all}
    for it in sorted(set(functions.all) - reached):
        yield "nothing calls %s (crates/%s/src/%s.rt:%d)" % (path_of(it), it.crate, it.module, it.line)
    called = functions.reached()
    for path in kept:
        if path not in paths:
            yield "%s lists %s, which is gone" % (PORT, path)
        elif all(it in called for it in functions.all if path_of(it) == path):
            yield "%s lists %s, which something calls: take it out" % (PORT, path)
    yield from ("%s lists %s twice" % (PORT, path) for path, times in collections.Counter(kept).items() if times > 1)


# ---- lemmas and definitions

TERMS = {"Answers", "Invariants", "Proof", "Lib"}
"""The files of proof terms for functions, and those that list modules."""

IMPORT = re.compile(r"\b(?:ghost )?use (Rattle\.[^\s{;]+?)(?:\.\{([^}]*)\}| as (\w+))?(?=[;\s]|$)")
WORD = re.compile(r"[^\s(){}\[\],;.\"«»]+")
HEAD = re.compile(r"\s*(?:(?:abbrev|record|data|axiom|opaque|unfoldable|pub) )*(\S+)")
Piece = collections.namedtuple("Piece", "name line text")
"""A lemma or a definition: the lines of its type, or some of its equations."""


def module_of(path):
    """Returns the name by which a file is imported."""
    return ".".join(("Rattle", *path.relative_to(ROOT / "crates").with_suffix("").parts))


def is_of_lemmas(path):
    """Whether a file declares lemmas and definitions, which have to be reached."""
    folder = path.relative_to(ROOT / "crates").parts[1]
    return path.suffix == ".antt" and folder in ("specs", "proofs") and path.stem not in TERMS


class Imports:
    """What the imports of a source bring in: names, and modules by their aliases."""

    def __init__(self, text):
        self.names, self.modules = {}, {}
        for module, names, alias in IMPORT.findall(text):
            for name in filter(None, (it.strip() for it in names.split(","))):
                there, _, here = name.partition(" as ")
                self.names[here or there] = (module, there)
            if not names:
                self.modules[alias or module.split(".")[-1]] = module
        self.operators = {name: [part for part in name.split("◌") if part] for name in self.names if "◌" in name}

    def named_in(self, text, module, local=frozenset()):
        """Returns what a text of a module names: pairs of a module and a name."""
        words = set(WORD.findall(text))
        found = {(self.modules[of], name) for of, name in re.findall(r"\b(\w+)\.([^\s(){}\[\],;.]+)", text) if of in self.modules}
        found |= {(module, word) for word in words & local}
        found |= {self.names[word] for word in words & self.names.keys() - local}
        return found | {self.names[name] for name, parts in self.operators.items() if all(part in text for part in parts)}


def pieces_of(lines):
    """Yields the pieces of a file of lemmas. What the modules with parameters around it have in their heads belongs to a piece."""
    heads, before, begun = [(0, [])], [], None
    for number, line in enumerate([*lines, "the end"], 1):
        indent = len(line) - len(line.lstrip())
        if not line.strip() or re.match(r"\s*--|(?:ghost )?use |(?:pub )?mod ", line):
            continue
        if indent > heads[-1][0] or re.match(r"\s*[\])}]", line):
            (begun[2] if begun else heads[-1][1]).append(line)
            continue
        if begun:
            yield Piece(begun[0], begun[1], "\n".join(begun[2]))
            begun = None
        while indent < heads[-1][0]:
            heads.pop()
        if re.match(r"\s*module _|mutual$", line):
            heads.append((indent + 2, [line]))
        elif line.lstrip().startswith("unfolding "):
            before = [line]
        else:
            begun = HEAD.match(line)[1], number, [line, *before, *(text for _, texts in heads for text in texts)]
            before = []


def members_of(text):
    """Returns the names of the constructors of a `data`, or of the fields of a `record`."""
    is_type = re.match(r"\s*(?:(?:abbrev|pub) )*(?:data|record) ", text)
    return re.findall(r"(?m)^\s+(?:pub )?([^\s:]+) (?:\(.*\) )?:", text) if is_type else []


class Lemmas:
    """The lemmas and definitions of all crates, by module and name, with what each names and where each is."""

    def __init__(self):
        self.named, self.places, self.roots = collections.defaultdict(set), {}, set()
        for pattern in ("*/src/**/*.rt", "*/specs/**/*.antt", "*/proofs/**/*.antt"):
            for path in sorted((ROOT / "crates").glob(pattern)):
                self.read(path)

    def read(self, path):
        """Reads a file: what it declares, and what that names."""
        text, module = path.read_text("utf-8"), module_of(path)
        imports = Imports(text)
        if not is_of_lemmas(path):
            body = "\n".join(line for line in text.splitlines() if not re.match(r"\s*(?:--|//|(?:ghost )?use )", line))
            self.roots |= imports.named_in(body, module)
            return
        pieces = list(pieces_of(text.splitlines()))
        local = {piece.name for piece in pieces}
        for piece in pieces:
            key = module, piece.name
            self.named[key] |= imports.named_in(piece.text, module, local)
            self.places.setdefault(key, "%s:%d" % (path.relative_to(ROOT), piece.line))
            for member in members_of(piece.text):
                self.named[module, member].add(key)
            if "◌" in piece.name or piece.name.startswith("infix") or path.stem.endswith(("Rows", "Vectors")):
                self.roots.add(key)

    def unreached(self):
        """Returns the places and names of what nothing reaches."""
        ends, found = list(self.roots), set(self.roots)
        while ends:
            new = self.named[ends.pop()] - found
            found |= new
            ends += new
        return sorted((place, name) for (module, name), place in self.places.items() if (module, name) not in found)


def faults_of_lemmas(lemmas):
    """The lemmas and definitions that nothing reaches."""
    yield from ("nothing names %s (%s)" % (name, place) for place, name in lemmas.unreached())


def main():
    functions, lemmas = Functions(), Lemmas()
    faults = [*faults_of_functions(functions, kept_functions()), *faults_of_lemmas(lemmas)]
    for fault in faults:
        print("FAIL: " + fault)
    print("%d passed, %d failed" % (len(functions.all) + len(lemmas.places) - len(faults), len(faults)))
    return len(faults) != 0


if __name__ == "__main__":
    sys.exit(main())
