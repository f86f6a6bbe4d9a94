#!/usr/bin/env python3
# SPDX-License-Identifier: Apache-2.0
"""Makes packages in dist/: a source package, Debian packages, wheels, static programs, a package for npm, the page that opens images,
the prover's verdict, META.json, TRUST.md, TRIED, a bill of materials of each, and SHA256SUMS.

    packaging/dist.py                           `make dist`: in a checkout of git. The Debian packages are for this release of Debian
    packaging/dist.py --release                 `make release`: of a commit with a tag such as v0.2.0-rc1. The Debian packages are for each release of
                                                scripts/roots.py, and are built in roots of these. It also makes the Rust crate, the site
                                                and RELEASE, which names the tag and the commit
    packaging/dist.py --release --without-texts the same without the texts for other systems: not to be published, as RELEASE then says

The texts for other systems go into the source package, and wheels are built from them. `make dist` leaves them out if `make texts` hasn't
made them.

Everything is built from prebuilt/, by a C compiler, binutils, Python and Debian's tools, in a folder of its own without the
command rt on the path. So what the gate tests is what is shipped. Two runs over one commit give the same bytes, wherever they
are made, by tools of the same versions.
"""
import concurrent.futures
import datetime
import email.utils
import functools
import gzip
import hashlib
import io
import os
import pathlib
import re
import shutil
import subprocess
import sys
import tarfile
import tempfile

ROOT = pathlib.Path(__file__).resolve().parent.parent
sys.dont_write_bytecode = True
sys.path[:0] = [str(ROOT / "scripts"), str(ROOT / "packaging"), str(ROOT / "tests")]
import prebuilt  # noqa: E402
import roots  # noqa: E402
import rows  # noqa: E402
import sbom  # noqa: E402
import trust  # noqa: E402
import wheels  # noqa: E402

NAME = "hll-sketches"
SYSTEM_PATH = "/usr/sbin:/usr/bin:/sbin:/bin"
PYTHON = "/usr/bin/python3"
# what a release needs besides the build dependencies of debian/control.in
NEEDED = {"binutils", "build-essential", "dpkg-dev", "gcc", "git", "make", "python3-pip", "python3-wheel"}
# .. and `make release` in addition
CRATES = ["librust-bincode-dev", "librust-data-encoding-dev", "librust-serde-dev", "librust-serde-json-dev"]
NEEDED_FOR_RELEASE = {"cargo", "mmdebstrap", "pandoc", "rustc", *CRATES}
CARGO = "/usr/bin/cargo"


class Failed(Exception):
    """Why there is no release."""


@functools.lru_cache(None)
def version():
    """That of hll.h, which is the one place where it stands."""
    return ".".join(re.findall(r"^#define HLL_VERSION_[A-Z]+ (\d+)$", (ROOT / "bindings/c/hll.h").read_text(), re.M))


def output(*words, cwd=ROOT):
    return subprocess.run(words, cwd=cwd, stdout=subprocess.PIPE, text=True, check=True).stdout


@functools.lru_cache(None)
def epoch():
    """The time of the commit, by which every file of a package is dated."""
    return int(os.environ.get("SOURCE_DATE_EPOCH") or output("git", "log", "-1", "--format=%ct"))


def run(words, cwd, **more):
    """Runs a build in a plain environment, without rt; `Failed` with the end of what it said."""
    environment = dict(PATH=SYSTEM_PATH, LC_ALL="C.UTF-8", TZ="UTC", HOME=str(cwd), SOURCE_DATE_EPOCH=str(epoch()), PYTHONHASHSEED="0")
    ran = subprocess.run(list(map(str, words)), cwd=cwd, env={**environment, **more}, stdin=subprocess.DEVNULL,
                         stdout=subprocess.PIPE, stderr=subprocess.STDOUT, text=True, errors="replace")
    if ran.returncode:
        raise Failed("%s failed:\n%s" % (words[0], ran.stdout[-3000:]))
    return ran.stdout


def control_template():
    return (ROOT / "debian" / "control.in").read_text()


def build_dependencies():
    """The packages of Debian that debian/control.in names."""
    field = re.search(r"^Build-Depends:(.*\n(?: .*\n)*)", control_template(), re.M)[1]
    names = re.findall(r"(?:^|,)\s*([a-z0-9.+-]+)", field)
    return {"debhelper" if name == "debhelper-compat" else name for name in names}      # compat: provided by debhelper


def needed_packages(is_release=False):
    """The packages of Debian that `make dist` needs, or `make release`."""
    return NEEDED | (NEEDED_FOR_RELEASE if is_release else set()) | build_dependencies() | {name for wheel in wheels_here() for name in wheel.needs}


@functools.lru_cache(None)
def texts_here():
    """The paths in prebuilt/ of the texts for other systems, where all are here."""
    states = {name: prebuilt.asked("text", name) for name in prebuilt.other_systems.TEXTS}
    return [prebuilt.other_path(name) for name in states] if set(states.values()) == {"fresh"} else []


def wheels_here():
    """The wheels that can be built here."""
    return [wheel for wheel in wheels.WHEELS if wheel.is_in_checkout or texts_here()]


def missing_packages(is_release=False):
    """The packages that are needed and not installed."""
    listed, needed = "", needed_packages(is_release)
    if shutil.which("dpkg-query", path=SYSTEM_PATH):
        query = ["dpkg-query", "-W", "-f", "${Package} ${db:Status-Status}\n", *needed]
        listed = subprocess.run(query, stdout=subprocess.PIPE, stderr=subprocess.DEVNULL, text=True).stdout
    return sorted(name for name in needed if name + " installed" not in listed.splitlines())


def tag():
    """The tag of the commit that names this version: v0.2.0, or that of a candidate such as v0.2.0-rc1. None if there is none."""
    pattern = r"v%s(-rc\d+)?" % re.escape(version())
    return min((name for name in output("git", "tag", "--points-at", "HEAD").split() if re.fullmatch(pattern, name)), key=len, default=None)


def test_release(is_without_texts):
    """`Failed` if what is made here could not be published."""
    changed = output("git", "status", "--porcelain").splitlines()
    if changed:
        raise Failed("a release is made of a commit, and %d files differ from it, first %s" % (len(changed), changed[0][3:]))
    if tag() is None:
        raise Failed("a release is made of a commit with the tag v%s or v%s-rcN, and this commit has none: git tag -a v%s-rc1" % (3 * (version(),)))
    heading = re.search(r"^## (\d.*)$", (ROOT / "CHANGELOG.md").read_text(), re.M)[1]
    if tag() == "v" + version() and heading != version():
        raise Failed("CHANGELOG.md says '%s': the heading of version %s is its number alone" % (heading, version()))
    if not texts_here() and not is_without_texts:
        raise Failed("the texts for other systems are not here, or not those of prebuilt/VERDICT: make texts")
    why = roots.tools_missing()
    if why:
        raise Failed("the Debian packages are built in roots of their own, and %s" % why)


def test_tree(is_release):
    """`Failed` if packages can't be made here. Prints a line if the files are not those of a commit."""
    if not (ROOT / ".git").exists():
        raise Failed("a release is made in a checkout of git")
    missing = missing_packages(is_release)
    if missing:
        raise Failed("packages are missing: apt-get install %s" % " ".join(missing))
    if prebuilt.asked("state") != "fresh":
        raise Failed("prebuilt/ is %s: run ./check proofs, and commit what it writes" % prebuilt.asked("state"))
    if output("git", "status", "--porcelain", "--untracked-files=no"):
        print("dist: files differ from the commit, so what is made here is not to be published")
    if not texts_here():
        print("dist: the texts for other systems are not here, or not those of prebuilt/VERDICT, so nothing is made for Windows, macOS and RISC-V: make texts")


# ---- sources


def meta():
    """META.json of the extension, for PGXN."""
    return (ROOT / "packaging" / "META.json.in").read_text().replace("@VERSION@", version())


def changelog(suffix=""):
    """debian/changelog: one entry, of the time of the commit. The suffix of the version names a release of Debian."""
    maintainer = re.search(r"^Maintainer: (.*)$", control_template(), re.M)[1]
    date = email.utils.format_datetime(datetime.datetime.fromtimestamp(epoch(), datetime.timezone.utc))
    return "%s (%s-1%s) unstable; urgency=medium\n\n  * Version %s: the file changelog tells what has changed.\n\n -- %s  %s\n" % (
        NAME, version(), suffix, version(), maintainer, date)


def control():
    """debian/control: the template, with the versions of PostgreSQL that this release of Debian has."""
    with tempfile.TemporaryDirectory() as room:
        shutil.copytree(ROOT / "debian", pathlib.Path(room, "debian"))
        run(["pg_buildext", "updatecontrol"], room)
        return pathlib.Path(room, "debian", "control").read_text()


def files_of_sources():
    """All files of the checkout, the walks, which a script makes, and the texts for other systems: bytes by their names."""
    files = {name: (ROOT / name).read_bytes() for name in output("git", "ls-files", "-z").split("\0") if name and (ROOT / name).is_file()}
    files.update((str(path.relative_to(ROOT)), path.read_bytes()) for path in rows.texts())
    files.update(("prebuilt/" + path, (prebuilt.PREBUILT / path).read_bytes()) for path in texts_here())
    return files


def put_sources(dist, more):
    """The source package, with more files than those of the sources, and META.json."""
    files, top = {**files_of_sources(), **more}, "%s-%s/" % (NAME, version())
    put_tar(dist / (top[:-1] + ".tar.gz"), {top + name: data for name, data in files.items()}, {top + name for name in files if os.access(ROOT / name, os.X_OK)})
    (dist / "META.json").write_text(meta())


def unpacked(dist, room):
    """The source package, unpacked in a folder."""
    room.mkdir()
    with tarfile.open(dist / ("%s-%s.tar.gz" % (NAME, version()))) as tar:
        tar.extractall(room, **({"filter": "data"} if hasattr(tarfile, "data_filter") else {}))     # no argument of older Pythons
    return room / ("%s-%s" % (NAME, version()))


# ---- packages


def suffix_of(release):
    """What the version of a package for a release of Debian ends with: a later release has a greater version."""
    return "~deb" + release.number


def suffix_here():
    """The suffix of this release of Debian; none on a system without a number."""
    found = re.search(r"^VERSION_ID=\W?(\d+)", pathlib.Path("/etc/os-release").read_text(), re.M)
    return "~deb" + found[1] if found else ""


def put_debian(dist, room):
    """Debian packages for this release of Debian, from the source package."""
    tree = unpacked(dist, room)
    (tree / "debian" / "changelog").write_text(changelog(suffix_here()))
    run(["dpkg-buildpackage", "-b", "-us", "-uc"], tree, DEB_BUILD_OPTIONS="noautodbgsym nocheck parallel=2")
    for package in room.glob("*.deb"):
        shutil.copyfile(package, dist / package.name)


def build_root(release):
    """The root in which packages for a release of Debian are built."""
    return roots.root(release, "build", {"build-essential"} | build_dependencies())


def root_of(package):
    """The root in which a Debian package was built, or None."""
    return next((build_root(release) for release in roots.RELEASES if suffix_of(release) + "_" in package.name), None)


def put_debian_of(dist, room, release):
    """Debian packages for a release of Debian, from the source package, built in a root of it. pg_buildext makes its control file."""
    place = build_root(release)
    tree = unpacked(dist, room)
    (tree / "debian" / "changelog").write_text(changelog(suffix_of(release)))
    script = "cd %s && dpkg-buildpackage -b -us -uc" % tree.name
    status, said = roots.run_in(place, script, room, SOURCE_DATE_EPOCH=str(epoch()), PYTHONHASHSEED="0", PG_UPDATECONTROL="yes",
                                DEB_BUILD_OPTIONS="noautodbgsym nocheck parallel=2")
    if status:
        raise Failed("dpkg-buildpackage failed in a root of Debian %s:\n%s" % (release.number, said[-3000:]))
    for package in room.glob("*.deb"):
        shutil.copyfile(package, dist / package.name)


def put_wheel(dist, room, wheel):
    """A wheel for a system, from the source package. Returns the name of its file."""
    tree = unpacked(dist, room)
    run(["make", "-s", "-C", "bindings/c", "CFLAGS=-O2", *(word.replace("@TREE@", str(tree)) for word in wheel.words or ["all"])], tree)
    library, lines = tree / "bindings" / "c" / wheel.library, ""
    if wheel.has_module:
        run(["make", "-s", "-C", "bindings/python", "CFLAGS=-O2", *wheel.words], tree)
        lines = str(tree / "bindings" / "python" / pathlib.Path(wheel.library).with_name(wheels.MODULE))
    run([PYTHON, "-B", "scripts/links.py", "--installed", "bindings/python"], tree)      # the README describes the wheel, alone
    run([PYTHON, "-m", "pip", "wheel", "-q", "--no-build-isolation", "--no-deps", "--no-index", "--no-cache-dir", "-w", room / "wheels",
         tree / "bindings" / "python"], tree, LIBHLL=str(library), LIBHLL_LINES=lines, HLL_TRIED=wheel.tried, PYTHONDONTWRITEBYTECODE="1")
    (file,) = (room / "wheels").iterdir()
    shutil.copyfile(file, dist / file.name)
    return file.name


def put_wheels(dist, room, wanted):
    """These wheels, and TRIED, which says where each was tried."""
    made = [(wheel, put_wheel(dist, room / ("wheel-%d" % at), wheel)) for at, wheel in enumerate(wanted)]
    (dist / "TRIED").write_text("".join("%s: for %s. %s\n" % (file, wheel.name, wheel.tried) for wheel, file in made))


def static_name():
    return "%s-%s-static-x86_64.tar.gz" % (NAME, version())


def put_static(dist, room):
    """The programs as static ones, which run on every Linux, with musl as their C library; from the source package."""
    tree = unpacked(dist, room)
    run(["make", "-s", "-C", "programs", "CC=musl-gcc", "CFLAGS=-O2", "HARDENED=", "LDFLAGS=-static -s"], tree)
    pages = [tree / "LICENSE", tree / "NOTICE", *(tree / "man" / (name + ".1") for name in prebuilt.PROGRAMS)]
    files = {file.name: file.read_bytes() for file in [*pages, *(tree / "bin" / name for name in prebuilt.PROGRAMS)]}
    files["LICENSE.musl"] = pathlib.Path("/usr/share/doc/musl-dev/copyright").read_bytes()
    top = static_name()[:-len(".tar.gz")] + "/"
    put_tar(dist / static_name(), {top + name: data for name, data in files.items()}, {top + name for name in prebuilt.PROGRAMS})


def put_tar(file, files, executable=()):
    """Writes a compressed archive of files, by their names, dated by the commit."""
    with open(file, "wb") as raw, gzip.GzipFile("", "wb", 9, raw, epoch()) as packed, \
            tarfile.open(fileobj=packed, mode="w", format=tarfile.GNU_FORMAT) as tar:
        for name in sorted(files):
            entry = tarfile.TarInfo(name)
            entry.size, entry.mtime = len(files[name]), epoch()
            entry.mode = 0o755 if name in executable else 0o644
            tar.addfile(entry, io.BytesIO(files[name]))


def put_javascript(dist, room):
    """The package for npm, and the page that opens images, from the source package."""
    tree = unpacked(dist, room)
    run([PYTHON, "-B", "bindings/javascript/page/build.py", dist / "hll.html"], tree)
    run([PYTHON, "-B", "scripts/links.py", "--installed", "bindings/javascript"], tree)     # the README describes the package, alone
    run(["bindings/javascript/stage", room / "package"], tree)
    put_tar(dist / ("%s-%s.tgz" % (NAME, version())), {"package/" + file.name: file.read_bytes() for file in (room / "package").iterdir()})


def put_crate(dist, room):
    """The Rust crate, from the source package."""
    tree = unpacked(dist, room)
    run([PYTHON, "-B", "scripts/links.py", "--installed", "bindings/rust"], tree)       # the README describes the crate, alone
    run(["bindings/rust/stage", room / "crate"], tree)
    run([CARGO, "--config", "debian.toml", "package", "--quiet", "--offline", "--no-verify"], room / "crate", CARGO_HOME=str(room / "home"), CARGO_TARGET_DIR=str(room / "target"))
    (crate,) = (room / "target" / "package").glob("*.crate")
    shutil.copyfile(crate, dist / crate.name)


def site_name():
    return "%s-%s-site.tar.gz" % (NAME, version())


def put_site(dist, room):
    """The pages as a site, from the source package."""
    tree = unpacked(dist, room)
    run([PYTHON, "-B", "scripts/make_html.py", room / "site"], tree)
    top = site_name()[:-len(".tar.gz")] + "/"
    put_tar(dist / site_name(), {top + file.relative_to(room / "site").as_posix(): file.read_bytes() for file in (room / "site").rglob("*") if file.is_file()})


# whose versions decide on the bytes of packages
TOOLS = ["binutils", "debhelper", "dpkg-dev", "gcc", "libc6-dev", "postgresql-server-dev-all", "python3-setuptools"]
TOOLS_HERE = ["cargo", "libc6-dev-arm64-cross", "musl-tools", "pandoc", "python3-pip", "python3-wheel", *CRATES]


def put_release(dist):
    """RELEASE, which says what it was made of: a commit, and by which versions of tools."""
    lines = ["tag: %s" % tag(), "commit: %s" % output("git", "rev-parse", "HEAD").strip()]
    for title, place, names in [("this machine", pathlib.Path("/"), TOOLS + TOOLS_HERE), *(("Debian " + one.number, build_root(one), TOOLS) for one in roots.RELEASES)]:
        lines += ["%s: %s" % (title, line) for line in roots.versions_in(place, names).splitlines()]
    if not texts_here():
        lines.append("made without the texts for other systems: not to be published")
    (dist / "RELEASE").write_text("\n".join(lines) + "\n")


def put_sums(dist):
    sums = ["%s  %s\n" % (hashlib.sha256(file.read_bytes()).hexdigest(), file.name) for file in sorted(dist.iterdir())]
    (dist / "SHA256SUMS").write_text("".join(sums))


def make(is_release=False, is_without_texts=False):
    """All of dist/, which takes the place of an earlier one once it is whole."""
    if is_release:
        test_release(is_without_texts)
    test_tree(is_release)
    os.umask(0o022)
    with tempfile.TemporaryDirectory() as room:
        room = pathlib.Path(room)
        dist = room / "dist"
        dist.mkdir()
        shutil.copyfile(prebuilt.VERDICT, dist / "VERDICT")
        put_sources(dist, {"META.json": meta().encode(), "debian/changelog": changelog().encode(), "debian/control": control().encode()})
        if is_release:
            with concurrent.futures.ThreadPoolExecutor() as pool:
                list(pool.map(lambda release: put_debian_of(dist, room / ("debian-" + release.number), release), roots.RELEASES))
            put_crate(dist, room / "crate")
            put_site(dist, room / "site")
            put_release(dist)
        else:
            put_debian(dist, room / "debian")
        put_wheels(dist, room, wheels_here())
        put_static(dist, room / "static")
        put_javascript(dist, room / "javascript")
        (dist / "TRUST.md").write_text(trust.table() + "\n")
        sbom.put(dist, version(), epoch(), root_of)
        put_sums(dist)
        shutil.rmtree(ROOT / "dist", ignore_errors=True)
        shutil.copytree(dist, ROOT / "dist")
    for file in sorted((ROOT / "dist").iterdir()):
        print("%10d dist/%s" % (file.stat().st_size, file.name))


def main():
    options = set(sys.argv[1:])
    if options - {"--release", "--without-texts"} or options == {"--without-texts"}:
        print("usage: packaging/dist.py [--release [--without-texts]]", file=sys.stderr)
        return 2
    try:
        make("--release" in options, "--without-texts" in options)
    except (Failed, roots.Missing) as why:
        print("dist: %s" % why, file=sys.stderr)
        return 1
    return 0


if __name__ == "__main__":
    sys.exit(main())
