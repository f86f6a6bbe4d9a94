# SPDX-License-Identifier: Apache-2.0
"""Bills of materials, as SPDX 2.3 in JSON: for each package of dist/ what it is made of, by what, and what it needs."""
import hashlib
import json
import re
import subprocess
import tarfile
import time
import uuid

import prebuilt
import wheels

LICENCE = "Apache-2.0"
KINDS = {".deb": "INSTALL", ".whl": "LIBRARY", ".gz": "SOURCE", ".crate": "SOURCE", ".tgz": "LIBRARY", ".html": "APPLICATION"}
# The Rattle crate hex, a port of Rust's, which both programs contain, and functions of the toolchain's own libraries.
HEX = ("hex", "0.4.3", "MIT OR Apache-2.0", "the crate that decodes and encodes digits, as the toolchain ports it")
MUSL = ("musl", "1.2.3", "MIT", "the C library in the static programs")
RUNTIME = ("rattle-runtime", "NOASSERTION", "NOASSERTION", "functions of the toolchain's libraries core and std_alloc, for which it shows no licence (NOTICE)")


def sum_of(file):
    return hashlib.sha256(file.read_bytes()).hexdigest()


def first_line(*words, root=None):
    """What a tool says of its version, in a root if one is given; None where it is not there."""
    words = ["chroot", str(root), *words] if root else words
    try:
        return subprocess.run(words, stdout=subprocess.PIPE, text=True, check=True).stdout.splitlines()[0]
    except (OSError, subprocess.CalledProcessError, IndexError):
        return None


def part(name, version, licence=LICENCE, **more):
    """A package of SPDX."""
    told = {"name": name, "SPDXID": "SPDXRef-" + re.sub(r"[^A-Za-z0-9.-]+", "-", name), "versionInfo": version,
            "downloadLocation": "NOASSERTION", "filesAnalyzed": False, "licenseConcluded": licence, "licenseDeclared": licence,
            "copyrightText": "NOASSERTION"}
    return {**told, **more}


def summed(file):
    return [{"algorithm": "SHA256", "checksumValue": sum_of(file)}]


# ---- what packages are made of


def of_file(name, file, version, **more):
    """A part that is a file of dist/."""
    return part(name, version, checksums=summed(file), packageFileName=file.name, **more)


def is_static(package):
    """Whether a package has the static programs."""
    return "-static-" in package.name


def is_site(package):
    """Whether a package has the pages as a site."""
    return package.name.endswith("-site.tar.gz")


def is_for_web(package):
    """Whether a package has the module for WebAssembly, and no other compiled code."""
    return package.suffix in (".tgz", ".html") or is_site(package)


def texts_of(package):
    """The texts that a source package or a crate has."""
    verdict = prebuilt.committed()
    with tarfile.open(package) as tar:
        names = {name.partition("/prebuilt/")[2] for name in tar.getnames()}
    return sorted(names & {*verdict.files, *verdict.others})


def library(place):
    """The paths in prebuilt/ of the texts of the library in a directory: on Linux on x86-64 there are two."""
    return [place + "/libhll_c.s"] + ["x86_64/libhll_c_v3.s"] * (place == "x86_64")


def texts_in(package):
    """The paths in prebuilt/ of the texts that a package holds, or what was built from them."""
    if is_static(package):
        return ["x86_64/%s.s" % name for name in prebuilt.PROGRAMS]
    if is_for_web(package):
        return [prebuilt.WASM]
    if package.suffix in (".gz", ".crate"):
        return texts_of(package)
    if package.suffix == ".whl":
        (wheel,) = (one for one in wheels.WHEELS if re.search("-%s[.]" % one.tag, package.name))
        return library(wheel.text)
    if package.name.startswith("hll-sketches_"):
        return ["x86_64/hll_merge.s", "x86_64/hll_estimator_fields.s"]
    return [] if package.name.startswith("python3-") else library("x86_64")


def contents(package):
    """The proved parts of a package, and what of others was compiled into them."""
    verdict = prebuilt.committed()
    texts = texts_in(package)
    for path in texts:
        checksums = [{"algorithm": "SHA256", "checksumValue": {**verdict.files, **verdict.others}[path]}]
        comment = verdict.wasm if path == prebuilt.WASM else verdict.texts if path in verdict.others else "proved: " + verdict.said[path][-1]
        yield part("prebuilt-" + path.replace("/", "-"), verdict.sources[:12], checksums=checksums, comment=comment)
    others = [MUSL] * is_static(package) + [RUNTIME] * bool(texts) + [HEX] * any("hll_merge" in path or "hll_estimator_fields" in path for path in texts)
    yield from (part(name, version, licence, comment=comment) for name, version, licence, comment in others)


COMPILERS = {"aarch64": "aarch64-linux-gnu-gcc", "riscv64": "riscv64-linux-gnu-gcc", "win_amd64": "x86_64-w64-mingw32-gcc", "macosx": "clang"}


def compiler_of(package):
    """The C compiler that built it."""
    if is_static(package) or "musllinux" in package.name:
        return "musl-gcc"
    return next((compiler for word, compiler in COMPILERS.items() if word in package.name), "gcc")


def tools(package, root):
    """What built it, in a root if one is given: the prover, whose compiler made the text, and what assembled and packed it."""
    kit, _, logic = prebuilt.committed().prover.partition(" logic ")
    yield part(kit, logic, "NOASSERTION", comment="proves the crates, and compiles them to the text of prebuilt/")
    if is_for_web(package):
        yield part("binaryen", prebuilt.committed().wasm.rpartition(" ")[2], comment="lowers the module to a 32-bit memory, and optimizes it")
    python = ["/usr/bin/python3", "-c", "import sys, importlib; print(importlib.import_module(sys.argv[1]).__version__)"]
    asked = {compiler_of(package): ["-dumpversion"], "as": ["--version"], "ld": ["--version"]}
    asked = {name: [name, *words] for name, words in asked.items()}
    if package.suffix == ".deb":
        asked["dpkg-buildpackage"] = ["dpkg-buildpackage", "--version"]
    if package.suffix == ".whl":
        asked.update({name: [*python, name] for name in ("setuptools", "wheel", "pip")})
    if package.suffix in (".deb", ".whl"):
        for name, words in asked.items():
            yield part(name, first_line(*words, root=root) or "NOASSERTION", "NOASSERTION")


def needed_c_library(wheel):
    """The C library of Linux that a wheel needs, by its tag, and the version."""
    found = re.search(r"(many|musl)linux_(\d+)_(\d+)", wheel.name)
    return ("musl" if found[1] == "musl" else "glibc", ">= %s.%s" % found.group(2, 3)) if found else ("glibc", "NOASSERTION")


def needed_by(file):
    """Names and versions of what a package needs where it runs."""
    if file.suffix == ".deb":
        said = first_line("dpkg-deb", "--field", str(file), "Depends") or ""
        for one in filter(None, re.split(r", *", said)):
            name, _, version = one.partition(" ")
            yield name.partition(":")[0], version.strip("()") or "NOASSERTION"
    elif file.suffix == ".whl":
        yield "python3", ">= 3.9"
        if "linux" in file.name:
            yield needed_c_library(file)


def related(file, root):
    """Parts and relations of a package: triples of a part, a relation, and whether that is said of the package."""
    yield from ((one, "CONTAINS", True) for one in contents(file))
    yield part("datasketches", "0.6.0", comment="the Rust crate whose module hll is ported",
               copyrightText="Copyright 2025-2026 The Apache Software Foundation"), "DESCENDANT_OF", True
    yield from ((one, "BUILD_TOOL_OF", False) for one in tools(file, root))
    wanted = {}
    for name, one in needed_by(file):
        wanted.setdefault(name, []).append(one)
    for name, versions in wanted.items():
        yield part(name, ", ".join(versions), "NOASSERTION"), "DEPENDS_ON", True


def relation(left, kind, right):
    return {"spdxElementId": left, "relationshipType": kind, "relatedSpdxElement": right}


def document(file, version, epoch, root):
    """The bill of one package, which was built in a root if one is given."""
    root = of_file(file.name, file, version, primaryPackagePurpose="APPLICATION" if is_static(file) else KINDS.get(file.suffix, "APPLICATION"))
    own = root["SPDXID"] = "SPDXRef-Package"
    parts, relations = [root], [relation("SPDXRef-DOCUMENT", "DESCRIBES", own)]
    for one, kind, is_of_package in related(file, root):
        parts.append(one)
        relations.append(relation(own, kind, one["SPDXID"]) if is_of_package else relation(one["SPDXID"], kind, own))
    return {
        "spdxVersion": "SPDX-2.3", "dataLicense": "CC0-1.0", "SPDXID": "SPDXRef-DOCUMENT", "name": file.name,
        "documentNamespace": "urn:uuid:%s" % uuid.uuid5(uuid.NAMESPACE_OID, sum_of(file)),
        "creationInfo": {"created": time.strftime("%Y-%m-%dT%H:%M:%SZ", time.gmtime(epoch)), "creators": ["Tool: packaging/sbom.py"]},
        "packages": parts, "relationships": relations,
    }


def put(dist, version, epoch, root_of=lambda file: None):
    """Writes the bill of each package next to it. `root_of` gives the root in which a package was built, or None."""
    for file in sorted(dist.iterdir()):
        if file.suffix in KINDS:
            bill = json.dumps(document(file, version, epoch, root_of(file)), indent=1)
            (dist / (file.name + ".spdx.json")).write_text(bill + "\n")
