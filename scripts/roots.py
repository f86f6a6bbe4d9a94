# SPDX-License-Identifier: Apache-2.0
"""Roots of Debian releases: packages are built in them, and installed as a new user installs them, and the checkout is built and tested.

mmdebstrap makes a root once, below the user's cache directory ($XDG_CACHE_HOME, or ~/.cache, in hll-sketches/roots). Later runs use it
again and change nothing in it: what runs in a root sees a copy, whose changes are in memory and end with it. This needs root, mmdebstrap,
unshare and Debian's packages.
"""
import collections
import fcntl
import hashlib
import os
import pathlib
import shutil
import subprocess

CACHE = pathlib.Path(os.environ.get("XDG_CACHE_HOME") or pathlib.Path.home() / ".cache") / "hll-sketches" / "roots"
Release = collections.namedtuple("Release", "number codename")
RELEASES = [Release("12", "bookworm"), Release("13", "trixie")]
# what a user has who builds with the library: a compiler, Python, Node, the databases
USER = "cmake g++ gcc libc6-dev make man-db nodejs pkg-config postgresql python3 python3-venv sqlite3".split()
TRIES, MINUTES = 3, 20
PLAIN = {"PATH": "/usr/sbin:/usr/bin:/sbin:/bin", "LC_ALL": "C.UTF-8", "TZ": "UTC", "HOME": "/room"}
# $0 is the root, $1 the script, $2 a directory for the copy and $3 what the script sees as /room
SCRIPT = """set -e
mount -t tmpfs tmpfs "$2"
mkdir "$2/changed" "$2/work" "$2/root"
mount -t overlay overlay -o "lowerdir=$0,upperdir=$2/changed,workdir=$2/work" "$2/root" 2>/dev/null || cp -a "$0/." "$2/root"
mount -t proc proc "$2/root/proc"
mount --rbind /dev "$2/root/dev"
mount -t tmpfs -o mode=1777 tmpfs "$2/root/tmp"
mkdir "$2/root/room"
mount --bind "$3" "$2/root/room"
chroot "$2/root" /bin/sh -c "cd /room && $1"
"""


class Missing(Exception):
    """Why there is no root of a release."""


def ran(*words, **more):
    """Runs a command. Returns its status and what it said."""
    done = subprocess.run([str(word) for word in words], stdin=subprocess.DEVNULL, stdout=subprocess.PIPE, stderr=subprocess.STDOUT, text=True,
                          errors="replace", **more)
    return done.returncode, done.stdout


def tools_missing():
    """Why no root can be made here, or None."""
    if os.geteuid() != 0:
        return "only root can make roots"
    missing = [tool for tool in ("mmdebstrap", "unshare", "chroot") if not shutil.which(tool)]
    return "%s is not here" % missing[0] if missing else None


def root(release, kind, packages):
    """The root of a release with these packages, made if it isn't there."""
    if tools_missing():
        raise Missing(tools_missing())
    CACHE.mkdir(parents=True, exist_ok=True)
    place = CACHE / ("%s-%s" % (release.codename, kind))
    mark = CACHE / (place.name + ".made-of")
    wanted = hashlib.sha256(repr(sorted(packages)).encode()).hexdigest()
    with open(CACHE / (place.name + ".lock"), "w") as lock:
        fcntl.flock(lock, fcntl.LOCK_EX)
        if mark.exists() and mark.read_text() == wanted and place.exists():
            return place
        mark.unlink(missing_ok=True)
        for _ in range(TRIES):
            shutil.rmtree(place, ignore_errors=True)
            words = ["mmdebstrap", "--mode=root", "--variant=apt", "--quiet", "--dpkgopt=force-unsafe-io", '--aptopt=APT::Install-Recommends "false"',
                     "--include=" + ",".join(sorted(packages)), release.codename, place]
            status, said = ran("timeout", str(60 * MINUTES), *words)
            if status == 0:
                mark.write_text(wanted)
                return place
    raise Missing("a root of Debian %s can't be made: %s" % (release.number, (said.strip().splitlines() or [""])[-1][:200]))


def run_in(place, script, room, **more):
    """Runs a script for the shell as root in a copy of a root, in which the directory `room` is /room. Returns its status and what it said."""
    copy = pathlib.Path(room).parent / (pathlib.Path(room).name + ".root")
    copy.mkdir()
    words = ["timeout", 60 * MINUTES, "unshare", "--mount", "--pid", "--fork", "--kill-child", "--propagation", "private", "sh", "-c", SCRIPT,
             place, script, copy, room]
    status, said = ran(*words, env={**PLAIN, **more})
    copy.rmdir()
    return status, said


def versions_in(place, packages):
    """The versions of packages in a root: lines of a name and a version."""
    query = ["dpkg-query", "--admindir", str(place / "var/lib/dpkg"), "-W", "-f", "${Package} ${Version}\n", *packages]
    return subprocess.run(query, stdout=subprocess.PIPE, stderr=subprocess.DEVNULL, text=True).stdout
