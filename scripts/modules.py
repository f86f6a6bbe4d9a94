#!/usr/bin/env python3
# SPDX-License-Identifier: Apache-2.0
"""Draws which module of a crate uses which, and fails where modules use each other in a cycle.

    scripts/modules.py [CRATE ..]    these crates, or all: each module after the modules that it uses, and these next to it
    scripts/modules.py check         only the cycles

A module uses another one of its crate if it names it after `crate::`, or calls a method of a type of the crate that the other
one defines in an `impl` block. The type of a method's receiver is known if it is `self`, a parameter or a variable whose
type the source names, a field of one of these, or a type that stands before `::`. A call on the result of another call is not
resolved: what it needs is named by the module that returns the value. The root, lib.rt or main.rt, uses the modules whose items
it names, but not those that it only declares; a module that names an item of the root uses the root. Each use that is part of
a cycle is in one of the cycles that are printed.

A type whose methods are in more modules than its own has a comment there that names them:

    // More methods are in the modules additions and merge.

The last line is 'N passed, M failed': crates without a fault; and cycles, and comments that are missing or wrong.
"""
import collections
import graphlib
import pathlib
import re
import sys

ROOT = pathlib.Path(__file__).resolve().parent.parent
NO_CODE = re.compile(r'//[^\n]*|"(?:\\.|[^"\\])*"')
GROUP = re.compile(r"\bcrate::\{([^{}]*(?:\{[^{}]*\}[^{}]*)*)\}")


def names_in(text):
    """The names that stand after `crate::`, in groups as well."""
    names = set(re.findall(r"\bcrate::(\w+)", text))
    for group in GROUP.findall(text):
        names.update(re.findall(r"(?:^|,)\s*(\w+)", re.sub(r"\{[^{}]*\}", "", group)))
    return names


# ---- methods


CLAUSE = re.compile(r"^ +(?:requires|ensures|ghost|invariant|decreases|proof)\b")
ITEM = re.compile(r"^(?:pub(?:\([\w ]+\))? )?(?:unsafe )?(impl|struct|enum|fn)\b(.*)")
METHOD = re.compile(r"^ *(?:pub(?:\([\w ]+\))? )?(?:const |unsafe )*fn (\w+)")

Type = collections.namedtuple("Type", "methods fields")
"""Of a type of a crate: the modules that define each method, and the type of each field."""


def head_of(type_text):
    """The name of a type without references, lifetimes, boxes and what is between angle brackets: `Header` for `&mut Header<'a>`."""
    text = re.sub(r"^(?:&|'\w+|mut\b|dyn\b|\s)+", "", type_text.strip())
    boxed = re.match(r"(?:Box|Option)<(.*)>$", text)
    if boxed:
        return head_of(boxed[1].split(",")[0])
    named = re.match(r"(?:\w+::)*(\w+)", text)
    return named[1] if named else ""


def without_clauses(text):
    """The lines of a module without those of contracts, which name methods that are not called."""
    return [line for line in text.splitlines() if not CLAUSE.match(line)]


def subject_of(header):
    """The type that an `impl` block is for."""
    text = re.sub(r"^<(?:[^<>]|<(?:[^<>]|<[^<>]*>)*>)*>", "", header).split("{")[0].split(" where ")[0]
    return head_of(text.split(" for ")[-1])


def blocks_of(lines):
    """The items of a module that have lines of their own: kind, what follows it, and the lines up to its end."""
    at = 0
    while at < len(lines):
        item = ITEM.match(lines[at])
        if item is None:
            at += 1
            continue
        end = at
        while end < len(lines) - 1 and not re.match(r"^[})]", lines[end]) and not (end == at and re.search(r"[;}]$", lines[end])):
            end += 1
        yield item[1], item[2], lines[at : end + 1]
        at = end + 1


def functions_of(kind, lines):
    """The functions of an item, each as its name and its lines."""
    starts = [n for n, line in enumerate(lines) if METHOD.match(line)] if kind in ("impl", "fn") else []
    for start, stop in zip(starts, [*starts[1:], len(lines)]):
        yield METHOD.match(lines[start])[1], lines[start:stop]


def types_of(texts):
    """The types of a crate by their names."""
    types = collections.defaultdict(lambda: Type(collections.defaultdict(set), {}))
    for module, text in texts.items():
        for kind, rest, lines in blocks_of(without_clauses(text)):
            if kind == "impl":
                for name, _ in functions_of(kind, lines):
                    types[subject_of(rest)].methods[name].add(module)
            elif kind == "struct":
                named = re.match(r" (\w+)", rest)
                fields = re.findall(r"^    (?:pub(?:\([\w ]+\))? )?(\w+): (.*?),?$", "\n".join(lines[1:]), re.M)
                types[named[1]].fields.update((field, head_of(of)) for field, of in fields)
    return types


def variables_of(lines, own):
    """The types of the parameters and variables of a function, as far as its source names them."""
    text = "\n".join(lines)
    known = {"self": own, "Self": own}
    for name, of in re.findall(r"\b(?:mut )?(\w+): ([^,;={}()]+)", text):
        known.setdefault(name, head_of(of))
    for name, of in re.findall(r"\blet (?:mut )?(\w+) = (\w+)(?: \{|::\w+\()", text):
        known[name] = own if of == "Self" else of
    return known


def calls_of(lines, own, types):
    """Pairs of a type and a method that a function calls on it."""
    known = variables_of(lines, own)
    text = "\n".join(lines[1:])
    for of, method in re.findall(r"\b([A-Z]\w*)(?:::<[^>]*>)?::(\w+)\(", text):
        yield known.get(of, of), method
    for receiver, method in re.findall(r"(?<![\w.)\]?])(\w+(?:\.\w+)*)\.(\w+)(?:::<[^>]*>)?\(", text):
        first, *fields = receiver.split(".")
        of = known.get(first, "")
        for field in fields:
            of = types[of].fields.get(field, "") if of in types else ""
        yield of, method


def modules_by_methods(module, text, types):
    """The modules whose methods a module calls."""
    for kind, rest, lines in blocks_of(without_clauses(text)):
        own = subject_of(rest) if kind == "impl" else ""
        for _, function in functions_of(kind, lines):
            for of, method in calls_of(function, own, types):
                places = types[of].methods.get(method, ()) if of in types else ()
                if len(places) == 1 and module not in places:
                    yield next(iter(places))


# ---- types whose methods are in several modules


def sentence_of(modules):
    """The comment that names modules."""
    *first, last = modules
    names = "%s and %s" % (", ".join(first), last) if first else last
    return "// More methods are in the module%s %s." % ("s" if first else "", names)


def faults_of_comments(sources):
    """Types whose comment doesn't name the other modules that have methods of them."""
    wanted, places = collections.defaultdict(set), {}
    for file in sources.glob("*.rt"):
        text = NO_CODE.sub("", file.read_text("utf-8"))
        for kind, rest, _ in blocks_of(without_clauses(text)):
            if kind == "impl" and " for " not in rest.split("{")[0]:
                wanted[subject_of(rest)].add(file.stem)
            elif kind in ("struct", "enum"):
                places[re.match(r" (\w+)", rest)[1]] = file
    for name, file in sorted(places.items()):
        others = sorted(wanted[name] - {file.stem})
        above = re.split(r"\b(?:struct|enum) %s\b" % name, file.read_text("utf-8"))[0].rpartition("\n\n")[2]
        found = re.findall(r"^// More methods are in .*$", above, re.M)
        if found != ([sentence_of(others)] if others else []):
            yield "%s: at %s, write: %s" % (file.name, name, sentence_of(others) if others else "no such comment")


# ---- uses


def uses_of(sources):
    """The modules of a crate, each with the set of those that it uses."""
    texts = {file.stem: NO_CODE.sub("", file.read_text("utf-8")) for file in sources.glob("*.rt")}
    types = types_of(texts)
    uses = {}
    for module, text in texts.items():
        names = names_in(text)
        if module in ("lib", "main"):
            names.update(re.findall(r"(?<![\w:])(?:self::)?(\w+)::", text))
            names &= set(texts)
        root = "lib" if "lib" in texts else "main"
        uses[module] = {name if name in texts else root for name in names} | set(modules_by_methods(module, text, types))
        uses[module].discard(module)
    return uses


def way(uses, first, last):
    """The shortest way from one module to another by what each uses, if there is one."""
    came_from, ends = {first: None}, [first]
    while ends and last not in came_from:
        nexts = [(used, module) for module in ends for used in sorted(uses[module])]
        ends = []
        for used, module in nexts:
            if used not in came_from:
                came_from[used] = module
                ends.append(used)
    path = [last] if last in came_from else []
    while path and came_from[path[-1]] is not None:
        path.append(came_from[path[-1]])
    return path[::-1]


def cycles_of(uses):
    """The cycles, each from its first module by name: for each use that is part of a cycle, the shortest one."""
    found = set()
    for module in uses:
        for used in uses[module]:
            cycle = way(uses, used, module)
            if cycle:
                at = cycle.index(min(cycle))
                found.add(tuple(cycle[at:] + cycle[:at]))
    return sorted(found)


def drawing_of(uses):
    """A line for each module: after those that it uses, as far as no cycle keeps it from that."""
    onward = {module: {used for used in uses[module] if not way(uses, used, module)} for module in sorted(uses)}
    width = max(map(len, uses), default=0)
    for module in graphlib.TopologicalSorter(onward).static_order():
        yield ("    %-*s  %s" % (width, module, ", ".join(sorted(uses[module])))).rstrip()


def main():
    only_check = sys.argv[1:] == ["check"]
    crates = {folder.parent.name: folder for folder in sorted((ROOT / "crates").glob("*/src"))}
    wanted = list(crates) if only_check else sys.argv[1:] or list(crates)
    if not set(wanted) <= set(crates):
        sys.exit(__doc__.split("\n\n")[1])
    passed = failed = 0
    for crate in wanted:
        uses = uses_of(crates[crate])
        cycles = cycles_of(uses)
        if not only_check:
            print("\n".join([crate, *drawing_of(uses)]))
        for cycle in cycles:
            print("FAIL: %s has a cycle: %s" % (crate, " uses ".join([*cycle, cycle[0]])))
        faults = list(faults_of_comments(crates[crate]))
        for fault in faults:
            print("FAIL: %s/%s" % (crate, fault))
        passed += not cycles and not faults
        failed += len(cycles) + len(faults)
    print("%d passed, %d failed" % (passed, failed))
    return failed != 0


if __name__ == "__main__":
    sys.exit(main())
