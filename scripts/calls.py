#!/usr/bin/env python3
# SPDX-License-Identifier: Apache-2.0
"""Writes what lists the calls of the C library, or the words and sentences of their statuses. bindings/c/hll.h has both: there
alone they are written by hand.

    scripts/calls.py          writes it
    scripts/calls.py check    compares it, and prints 'N passed, M failed' at the end

    bindings/c/hll.map                    the names that the shared library shows: all calls
    bindings/c/proved_calls.h             the calls that the crate hll_c exports, with their parameters
    bindings/javascript/wasm/exports.h    the calls that the package for JavaScript or its tests name

In these files it writes what is between two comments:

    bindings/python/hll_sketches/_library.py    the calls that the package names, and the words
    bindings/python/hll_sketches/_errors.py     the sentences
    bindings/rust/src/libhll.rs                 the calls that the crate names
    bindings/rust/src/error.rs                  words and sentences
    bindings/javascript/core.mjs, hll.d.mts     words and sentences, and the version

`check` also fails if the crate exports a call that hll.h lacks, or with parameters of other types; if hll.h has a call that neither the
crate exports nor a C file of bindings/c defines; and if no test names a call.
"""
import collections
import pathlib
import re
import sys
import textwrap

ROOT = pathlib.Path(__file__).resolve().parent.parent
SOURCES = {".c", ".h", ".cpp", ".hpp", ".go", ".mjs", ".py", ".rs", ".sql"}
"""The endings of files that can call."""

HEADERS = ("hll.h", "hll_state.h")
"""The headers of the C library, which are called hll.h below."""

Call = collections.namedtuple("Call", "result name parameters")
Parameter = collections.namedtuple("Parameter", "type name")


class Broken(Exception):
    """What the lists can't be made of."""


# ---- hll.h, and what defines its calls


def plain(text):
    """Returns a text with one blank in place of several and of ends of lines."""
    return re.sub(r"\s+", " ", text).strip()


def parameters_of(text):
    """Returns the parameters of a prototype."""
    found = [re.fullmatch(r"([\w *]*[ *])(\w+)", it) for it in plain(text).split(", ") if it != "void"]
    if not all(found):
        raise Broken("hll.h has a prototype with other parameters than types and names: %s" % plain(text))
    return [Parameter(it[1].strip(), it[2]) for it in found]


def declared():
    """Returns the calls of the headers by their names, in their order."""
    text = "".join((ROOT / "bindings/c" / name).read_text("utf-8") for name in HEADERS)
    found = re.finditer(r"(?m)^(hll_status|uint32_t|void|const char \*) ?(hll_\w+)\(([^;{]*?)\);", text)
    return {it[2]: Call(it[1], it[2], parameters_of(it[3])) for it in found}


def exported():
    """Returns the calls that the crate hll_c exports by their names, each as what its source has after the name, up to its clauses."""
    texts = [file.read_text("utf-8") for file in sorted((ROOT / "crates/hll_c/src").glob("*.rt"))]
    found = (it for text in texts for it in re.finditer(r"\bfn (hll_\w+)([^{]*?)(?=\n *(?:requires|ensures)\b|\{)", text))
    return {it[1]: plain(it[2]) for it in found}


def defined():
    """Returns the names of the calls that C files of bindings/c define."""
    texts = [file.read_text("utf-8") for file in sorted((ROOT / "bindings/c").glob("*.c"))]
    return {name for text in texts for name in re.findall(r"(?m)^\w[\w *]*?(hll_\w+)\([^;{]*?\)\n\{", text)}


def handed_over(call):
    """Returns the proved call to which the C file hands over that defines a call: it counts the room of a state in elements of four
    bytes, and returns an estimate without bounds."""
    parameters = []
    for kind, name in call.parameters:
        if name.endswith("room") and parameters[-1].type.endswith("void *"):
            name = name[: -len("room")] + "elements"
        if kind == "hll_estimation *":
            kind, name = "struct estimate *", "estimate"
        parameters.append(Parameter(kind, name))
    return call._replace(parameters=parameters)


def as_proved(call, plain_c):
    """Returns a call as the crate exports it, which C defines if it is one of `plain_c`."""
    return handed_over(call) if call.name in plain_c else call


# ---- what the crate exports next to hll.h

STRUCTURES = {"HllEstimate": "struct estimate", "HllStateInfo": "hll_state_summary"}
"""Types of the crate whose names in C are others, but for their form."""

ELEMENTS = {"u8": "uint8_t", "u32": "uint32_t", "usize": "size_t", "&[u8]": "hll_bytes", "[u8; 4]": "void"}


def element(kind):
    """Returns the type in C of what a reference of the crate refers to."""
    return STRUCTURES.get(kind) or ELEMENTS.get(kind) or re.sub(r"(?!^)(?=[A-Z])", "_", kind).lower()


def types_in_c(kind):
    """Returns the types of the parameters in C that one parameter of the crate takes: a slice has two."""
    found = re.fullmatch(r"&(mut )?(\[(.*)\]|.*)", kind)
    if kind == "Global":
        return []
    if not found:
        return [element(kind)]
    pointer = "%s%s *" % ("" if found[1] else "const ", element(found[3] or found[2]))
    return [pointer, "size_t"] if found[3] else [pointer]


def types_of(call):
    """Returns the types of a call of hll.h, with one name for those that have the same bytes."""
    same = {"hll_status": "uint8_t", "unsigned": "uint32_t", "const int32_t *": "const uint32_t *"}
    return [same.get(kind, kind) for kind in [call.result, *(it.type for it in call.parameters)]]


def types_of_export(text):
    """Returns the types in C of what a source of the crate has after the name of an export."""
    found = re.fullmatch(r"\((.*?),? ?\) -> (\w+)", text)
    if not found:
        return []
    kinds = re.findall(r"\w+: (.+?)(?=, \w+: |$)", found[1])
    return [element(found[2]), *(kind for it in kinds for kind in types_in_c(it))]


def faults_of_exports():
    """What differs between hll.h and the code of its calls."""
    calls, exports, plain_c = declared(), exported(), defined()
    for name in sorted(exports.keys() - calls.keys()):
        yield "the crate hll_c exports %s, which hll.h lacks" % name
    for name in sorted(calls.keys() - exports.keys() - plain_c):
        yield "hll.h has %s, which the crate hll_c doesn't export and no C file defines" % name
    for name in sorted(calls.keys() & exports.keys()):
        there, here = types_of_export(exports[name]), types_of(as_proved(calls[name], plain_c))
        if there != here:
            yield "%s has the types %s in hll.h, and %s in the crate hll_c" % (name, ", ".join(here), ", ".join(there))


# ---- who names a call


def named_in(*patterns):
    """Returns what begins with hll_ in the files of these patterns, but in comments of C's form."""
    files = {file for pattern in patterns for file in ROOT.glob(pattern) if file.suffix in SOURCES and file.is_file()}
    texts = (re.sub(r"(?m)^\s*(?://|/?\*).*$", "", file.read_text("utf-8", "replace")) for file in files)
    return {name for text in texts for name in re.findall(r"\bhll_\w+", text)}


def faults_of_tests():
    """The calls that no test names."""
    named = named_in("bindings/*/tests/**/*", "bindings/*/*_test.go", "tests/**/*")
    yield from ("no test names %s" % name for name in declared() if name not in named)


def calls_named(text, pattern):
    """Returns the calls of which a text has the names, where a pattern finds them."""
    named = set(re.findall(pattern, text))
    return [call for name, call in declared().items() if name in named]


# ---- words and sentences of statuses


def strings_of(array):
    """Returns the strings of an array of hll.h: `words` or `sentences`."""
    found = re.search(r"%s\[\] = \{(.*?)\};" % array, (ROOT / "bindings/c/hll.h").read_text("utf-8"), re.S)
    return re.findall(r'"([^"]*)"', found[1])


def reasons():
    """Returns the word and the sentence of each status that says why bytes are not an image, as part of another sentence."""
    both = list(zip(strings_of("words"), strings_of("sentences")))
    names = [word for word, _ in both]
    return [(word, said[0].lower() + said.rstrip(".")[1:]) for word, said in both[1 : names.index("argument")]]


def quoted(strings, indent="  ", between=", "):
    """Returns strings in quotes, in lines of about 120 characters."""
    text = between.join('"%s"' % it for it in strings)
    return textwrap.fill(text, 120, initial_indent=indent, subsequent_indent=indent, break_long_words=False, break_on_hyphens=False)


# ---- the lists

MAP = """/* SPDX-License-Identifier: Apache-2.0 */
# The calls of hll.h. The libraries show these names and no others. scripts/calls.py writes this file.
HLL_0 {
    global:
%s    local:
        *;
};
"""

PROVED = """/* SPDX-License-Identifier: Apache-2.0 */
/*
 * The proved calls: CALL(type, name, (parameters), (arguments)) for a call of hll.h, and WRAPPED(..) for one to which optional.c,
 * state.c or estimate.c hands over, under the name proved_... scripts/calls.py writes this file from hll.h.
 */
/* clang-format off */
%s"""

EXPORTS = """/* SPDX-License-Identifier: Apache-2.0 */
/*
 * The calls of hll.h that the module exports: CALL(name, (parameters), (arguments)), or VOID_CALL(..) for one that returns nothing.
 * A call gets the size of a structure here, and not from JavaScript. scripts/calls.py writes this file from hll.h.
 */
/* clang-format off */
%s"""

BEGIN, END = "scripts/calls.py writes what follows, from bindings/c/hll.h", "end of what scripts/calls.py writes"


def proved_line(call, plain_c):
    """Returns the line of a proved call, which C defines if it is one of `plain_c`."""
    kind, call = "WRAPPED" if call.name in plain_c else "CALL", as_proved(call, plain_c)
    parameters = ", ".join((it.type + " " + it.name).replace("* ", "*") for it in call.parameters)
    arguments = ", ".join(it.name for it in call.parameters)
    return "%s(%s, %s, (%s), (%s))\n" % (kind, call.result, call.name, parameters, arguments)


def export_line(call):
    """Returns the line of a call for JavaScript, which passes addresses and lengths as numbers."""
    parameters, arguments = [], []
    for kind, name in call.parameters:
        structure = re.fullmatch(r"(hll_\w+) \*", parameters[-1].type) if parameters else None
        if structure and name.endswith("_size"):
            arguments.append("sizeof(%s)" % structure[1])
            continue
        parameters.append(Parameter(kind, name))
        pointed = re.fullmatch(r"(?:const )?(\w+) \*", kind)
        arguments.append("TO(%s, %s)" % (pointed[1], name) if pointed else name)
    taken = ", ".join("at " + it.name for it in parameters) or "void"
    return "%s(%s, (%s), (%s))\n" % ("VOID_CALL" if call.result == "void" else "CALL", call.name, taken, ", ".join(arguments))


def translated(kind, words, pointers):
    """Returns a type of C in another language: one of `words`, or what `pointers` makes of the pointer's const, and of what it
    points to."""
    if kind in words:
        return words[kind]
    found = re.fullmatch(r"(const )?(?:struct )?(\w+) \*", kind)
    made = pointers(bool(found[1]), found[2]) if found else None
    if not made:
        raise Broken("scripts/calls.py doesn't know the type %s" % kind)
    return made


def structure(name):
    """Returns the name that a structure of hll.h has in Python and Rust: Summary for hll_state_summary."""
    return name.split("_")[-1].capitalize()


CTYPES = {"hll_status": "c_uint8", "uint32_t": "c_uint32", "uint64_t": "c_uint64", "unsigned": "c_uint", "size_t": "c_size_t",
          "const char *": "c_char_p", "void": "None", "hll_allocator": "c_void_p", "const uint8_t *": "c_char_p"}
FILLED = {"hll_info", "hll_head", "hll_histogram", "hll_estimation", "hll_state_summary"}
"""The structures that Python has, which calls fill in."""


def python_line(call):
    """Returns the line of a call in _CALLS. Registers are memory, and no bytes."""
    def kind_of(it):
        if it.name in ("registers", "others"):
            return "c_void_p"
        return translated(it.type, CTYPES, lambda _, to: "POINTER(%s)" % structure(to) if to in FILLED else "c_void_p")
    result, kinds = translated(call.result, CTYPES, None), "[%s]" % ", ".join(map(kind_of, call.parameters))
    line = '    "%s": (%s, %s),\n' % (call.name, result, kinds)
    return line if len(line) <= 100 else '    "%s": (\n        %s,\n        %s,\n    ),\n' % (call.name, result, kinds)


RUST = {"hll_status": "Status", "uint32_t": "u32", "uint64_t": "u64", "unsigned": "c_uint", "size_t": "usize", "const char *": "*const c_char",
        "void": "()", "hll_allocator": "Option<Allocator>"}
RUST_POINTED = {"uint8_t": "u8", "uint32_t": "u32", "int32_t": "i32", "size_t": "usize", "void": "c_void"}


def rust_line(call, version):
    """Returns the line of a call in calls!, with the version in the name that build.rs gives it."""
    def pointer(is_const, to):
        return "*%s %s" % ("const" if is_const else "mut", RUST_POINTED.get(to) or structure(to))
    name = "hll_%s_%s" % (version, call.name[len("hll_"):])
    parameters = ["%s: %s" % (it.name, translated(it.type, RUST, pointer)) for it in call.parameters]
    begin, end = '    "%s" fn %s(' % (name, call.name), ") -> %s;\n" % translated(call.result, RUST, None)
    line = begin + ", ".join(parameters) + end
    return line if len(line) <= 121 else "%s\n        %s\n    %s" % (begin, ",\n        ".join(parameters), end)


def between(path, made):
    """Returns a file with the lines between its two comments made again. `made` gets the text before and after them."""
    found = re.fullmatch(r"(?s)(.*%s\n)(.*?)([^\n]*%s\n.*)" % (re.escape(BEGIN), END), (ROOT / path).read_text("utf-8"))
    if not found:
        raise Broken("%s lacks the comments between which this script writes" % path)
    return found[1] + made(found[1] + found[3]) + found[3]


def python_calls(others):
    """Returns the words and the calls of _library.py."""
    calls = calls_named(others, r'(?:_library\.|\[")(hll_\w+)')
    words = "WORDS = (\n%s)\n" % "".join('    "%s",\n' % word for word in strings_of("words"))
    return words + "_CALLS: Dict[str, Tuple[object, Sequence[object]]] = {\n%s}\n" % "".join(map(python_line, calls))


def python_sentences(_):
    return "_MEANINGS = {\n%s}\n" % "".join('    "%s": "%s",\n' % it for it in reasons())


def version_numbers():
    """Returns MAJOR, MINOR and PATCH of hll.h."""
    return re.findall(r"(?m)^#define HLL_VERSION_\w+ (\d+)$", (ROOT / "bindings/c/hll.h").read_text("utf-8"))


def rust_calls(others):
    """Returns the calls of libhll.rs."""
    version = "_".join(version_numbers()[:2])
    calls = calls_named(re.sub(r"//.*", "", others), r"\b(hll_\w+)\(")
    return "calls! {\n%s}\n" % "".join(rust_line(call, version) for call in calls)


def rust_sentences(_):
    rows = "".join('    ("%s", "%s"),\n' % it for it in reasons())
    return "const REASONS: [(&str, &str); %d] = [\n%s];\n" % (len(reasons()), rows)


def javascript_tables(_):
    words = "export const REASONS = Object.freeze([\n%s,\n]);\n" % quoted(strings_of("words"))
    sentences = "".join('  "%s",\n' % it for it in strings_of("sentences"))
    version = 'const VERSION = "%s";\n' % ".".join(version_numbers())
    return "%s\n/** A word for each status of a call. */\n%s\n/** A sentence for each status of a call. */\n%s" % (
        version, words, "export const MESSAGES = Object.freeze([\n%s]);\n" % sentences)


def javascript_type(_):
    return "export type Reason =\n%s;\n" % quoted(strings_of("words"), "  ", " | ")


PARTS = {
    "bindings/python/hll_sketches/_library.py": python_calls,
    "bindings/python/hll_sketches/_errors.py": python_sentences,
    "bindings/rust/src/libhll.rs": rust_calls,
    "bindings/rust/src/error.rs": rust_sentences,
    "bindings/javascript/core.mjs": javascript_tables,
    "bindings/javascript/hll.d.mts": javascript_type,
}
"""What makes the lines between the two comments of a file."""


def lists():
    """Returns the texts of the files that list calls or statuses, as they have to be, by their paths."""
    calls, exports, plain_c = declared(), exported(), defined()
    named = named_in("bindings/javascript/*.mjs", "bindings/javascript/page/*.mjs", "bindings/javascript/tests/*.mjs")
    return {
        "bindings/c/hll.map": MAP % "".join("        %s;\n" % name for name in calls),
        "bindings/c/proved_calls.h": PROVED % "".join(proved_line(call, plain_c) for name, call in calls.items() if name in exports),
        "bindings/javascript/wasm/exports.h": EXPORTS % "".join(export_line(call) for name, call in calls.items() if name in named),
        **{path: between(path, made) for path, made in PARTS.items()},
    }


def faults_of_list(path, wanted):
    """What a file lacks, and what it has without reason."""
    file = ROOT / path
    here, there = (file.read_text("utf-8") if file.exists() else "").splitlines(), wanted.splitlines()
    if here != there and set(here) == set(there):
        yield "%s has its lines in another order, or twice" % path
    for line in sorted(set(here) ^ set(there)):
        yield "%s %s: %s" % (path, "has" if line in here else "lacks", line.strip())


def main(words):
    made = lists()
    if words != ["check"]:
        for path, text in made.items():
            if not (ROOT / path).exists() or (ROOT / path).read_text("utf-8") != text:
                (ROOT / path).write_text(text, "utf-8")
        return 0
    stale = [fault for path, text in made.items() for fault in faults_of_list(path, text)]
    faults = [*stale, *faults_of_exports(), *faults_of_tests()]
    for fault in faults:
        print("FAIL: " + fault)
    if stale:
        print("to write the lists again: scripts/calls.py")
    print("%d passed, %d failed" % (len(declared()) + len(made) - len(stale), len(faults)))
    return len(faults) != 0


if __name__ == "__main__":
    try:
        sys.exit(main(sys.argv[1:]))
    except Broken as why:
        sys.exit("FAIL: %s" % why)
