# SPDX-License-Identifier: Apache-2.0
"""A PostgreSQL server of its own, with the extension: in a temporary folder, on a socket there, gone at the end.

Nothing is installed. A server looks for extensions and modules beside its own program, so the programs `postgres` and
`initdb` are copied into a tree that looks like the installed one, with links to all that belongs to that, and the
extension is installed into the tree. PostgreSQL refuses to be run by root, so there it is run by `nobody`.
"""
import ctypes
import os
import pathlib
import pwd
import re
import shutil
import signal
import subprocess
import tempfile
import time

HERE = pathlib.Path(__file__).resolve().parent.parent
SOURCES = ["Makefile", "*.[ch]", "*.map", "*.control", "hll_*.sql"]
VERSION = re.search(r"^default_version = '(.*)'$", (HERE / "hll_sketches.control").read_text(), re.M)[1]
# Two versions that are made up: EARLIER has what this one has, but for a section that the update brings. SAME has all of it.
EARLIER, SAME = "0.1.9", "0.1"
SETTINGS = """
listen_addresses = ''
fsync = off
shared_buffers = 256MB
max_worker_processes = 16
max_parallel_workers = 16
max_wal_size = 8GB
checkpoint_timeout = 1h
autovacuum = off
jit = off
log_min_messages = panic
"""


class Refused(Exception):
    """PostgreSQL can't be had here; the message says why."""


def get(*packages):
    """Installs packages of the distribution, where this is root and they can be had (bindings/tools.sh)."""
    subprocess.run(["sh", "-c", '. ./tools.sh; get "$@"', "get", *packages], cwd=HERE.parent)


def find_pg_config():
    """The path of a server's pg_config, which is installed where that may be."""
    for is_last in (False, True):
        found = os.environ.get("PG_CONFIG") or shutil.which("pg_config")
        if found and has_server(found):
            return found
        if not is_last:
            get("postgresql", "postgresql-server-dev-all")
    raise Refused("no server of PostgreSQL with its headers is here")


def find_tools():
    """What builds the extension."""
    for command, packages in (("make", ["make"]), ("cc", ["gcc", "libc6-dev"])):
        if not shutil.which(command):
            get(*packages)
        if not shutil.which(command):
            raise Refused("the command %s is not here" % command)


def folder(pg_config, name):
    return pathlib.Path(subprocess.run([pg_config, "--" + name], stdout=subprocess.PIPE, text=True, check=True).stdout.strip())


def has_server(pg_config):
    """Whether pg_config belongs to a server, and that has its headers."""
    needed = folder(pg_config, "bindir") / "postgres", folder(pg_config, "pgxs"), folder(pg_config, "includedir-server") / "postgres.h"
    return all(path.exists() for path in needed)


def end_with_parent(number):
    """For a child: get a signal when this process ends, however it ends (Linux)."""
    def before_exec():
        try:
            ctypes.CDLL(None).prctl(1, number)
        except (OSError, AttributeError):
            pass
    return before_exec


def link_all(source, target, is_own=lambda name: False):
    """Puts links into a folder to all that another one has, but what is its own."""
    target.mkdir(parents=True, exist_ok=True)
    for entry in source.iterdir():
        link = target / entry.name
        if not is_own(entry.name) and not link.is_symlink():
            link.symlink_to(entry)


def stats():
    """What the system says of each process: its number, and the words of /proc/NUMBER/stat from the third on."""
    for name in filter(str.isdigit, os.listdir("/proc")):
        try:
            with open("/proc/%s/stat" % name) as stat:
                yield int(name), stat.read().rpartition(")")[2].split()
        except OSError:     # it has ended
            pass


class Server:
    """A server that is up inside `with`."""

    def __init__(self, settings=""):
        find_tools()
        self.pg_config = find_pg_config()
        self.settings = SETTINGS + settings
        self.bin = folder(self.pg_config, "bindir")
        self.process = None
        self.as_user = {}
        if os.getuid() == 0:
            user = pwd.getpwnam("nobody")
            self.as_user = {"user": user.pw_uid, "group": user.pw_gid, "extra_groups": []}

    def __enter__(self):
        self.root = pathlib.Path(tempfile.mkdtemp(prefix="hll-"))
        self.root.chmod(0o755)
        self.file("").mkdir()
        self.file("").chmod(0o777)
        try:
            self.copy()
            self.link()
            self.install()
            self.start()
        except BaseException:
            self.__exit__()
            raise
        return self

    def __exit__(self, *_):
        for number in (signal.SIGINT, signal.SIGQUIT, signal.SIGKILL):    # the second ends what doesn't heed the first
            if self.process is None or self.process.poll() is not None:
                break
            self.process.send_signal(number)
            try:
                self.process.wait(20)
            except subprocess.TimeoutExpired:
                pass
        shutil.rmtree(self.root, ignore_errors=True)

    def inside(self, path):
        """Where an installed folder is in the tree."""
        return self.root / "tree" / path.relative_to("/")

    def copy(self):
        """The programs, which look for the rest beside them."""
        programs = self.inside(self.bin)
        programs.mkdir(parents=True)
        for name in ("postgres", "initdb"):
            shutil.copy2(self.bin / name, programs / name)

    def link(self):
        """What is installed, but another copy of the extension; again after something was."""
        share, modules = folder(self.pg_config, "sharedir"), folder(self.pg_config, "pkglibdir")
        link_all(modules, self.inside(modules), lambda name: name in ("hll_sketches.so", "pgxs"))
        link_all(share, self.inside(share), lambda name: name == "extension")
        link_all(share / "extension", self.inside(share) / "extension", lambda name: name.startswith("hll_sketches"))

    def install(self):
        """Builds the extension in a folder of its own, and installs it into the tree."""
        build = self.root / "build"
        build.mkdir()
        for source in (path for names in SOURCES for path in HERE.glob(names)):
            shutil.copy(source, build)
        make = ["make", "-s", "-C", build, "HLL_C=%s" % (HERE.parent / "c"), "PG_CONFIG=" + self.pg_config]
        built = subprocess.run(make + ["install", "DESTDIR=%s" % (self.root / "tree")],
                               stdout=subprocess.PIPE, stderr=subprocess.STDOUT, text=True)
        if built.returncode != 0:
            raise RuntimeError("the extension could not be built:\n" + built.stdout)
        self.make_earlier()
        self.warnings = [line for line in built.stdout.splitlines() if "warning:" in line]

    def make_earlier(self):
        """Scripts of EARLIER, without merges of two sketches and without the names of the other extensions; and of SAME."""
        extensions = self.inside(folder(self.pg_config, "sharedir")) / "extension"
        for name, first, last in (("hll_sketches", "-- ---- two sketches", "-- ---- functions of the aggregates"), ("hll_sketches_agg", "DO $$\nDECLARE", ""),
                                  ("hll_sketches_apache", "DO $$\nDECLARE", "")):
            text = (HERE / ("%s--%s.sql" % (name, VERSION))).read_text()
            start = text.index(first)
            end = text.index(last) if last else len(text)
            for version, script, change in (EARLIER, text[:start] + text[end:], text[start:end]), (SAME, text, "-- nothing has changed\n"):
                (extensions / ("%s--%s.sql" % (name, version))).write_text(script)
                (extensions / ("%s--%s--%s.sql" % (name, version, VERSION))).write_text(change)

    def start(self):
        self.prepare()
        self.begin()

    def begin(self, **more):
        """Starts the server, with more in its environment."""
        self.run_server(**more)
        self.await_start()

    def begin_again(self, **more):
        """Ends the server, and starts it with more in its environment."""
        self.process.send_signal(signal.SIGINT)
        self.process.wait(60)
        self.begin(**more)

    def prepare(self):
        data, self.socket = self.root / "data", self.root / "socket"
        for path in (data, self.socket):
            path.mkdir(mode=0o700)
            if self.as_user:
                os.chown(path, self.as_user["user"], self.as_user["group"])
        options = ["-U", "postgres", "-A", "trust", "-E", "UTF8", "--locale=C", "--no-sync"]
        initdb = [self.inside(self.bin) / "initdb", "-D", data] + options
        made = subprocess.run(initdb, cwd="/", stdout=subprocess.PIPE, stderr=subprocess.STDOUT, text=True, **self.as_user)
        if made.returncode != 0:
            raise RuntimeError("initdb failed:\n" + made.stdout)
        with open(data / "postgresql.conf", "a") as settings:
            settings.write(self.settings)
        self.environment = dict(os.environ, PGHOST=str(self.socket), PGUSER="postgres", PGDATABASE="postgres", PGOPTIONS="")
        for name in "PGPORT", "HLL_CPU":
            self.environment.pop(name, None)

    def run_server(self, **more):
        """Starts the server over its data, also again after it ended, and doesn't wait for it."""
        with open(self.root / "log", "wb") as log:
            self.process = subprocess.Popen(
                [self.inside(self.bin) / "postgres", "-D", self.root / "data", "-k", self.socket], cwd="/", env={**self.environment, **more},
                stdin=subprocess.DEVNULL, stdout=log, stderr=log, preexec_fn=end_with_parent(signal.SIGINT), **self.as_user)

    def await_start(self):
        ready = [self.bin / "psql", "-X", "-q", "-c", "SELECT 1"]
        for _ in range(600):
            asked = subprocess.run(ready, env=self.environment, stdout=subprocess.DEVNULL, stderr=subprocess.DEVNULL)
            if asked.returncode == 0:
                return
            if self.process.poll() is not None:
                break
            time.sleep(0.1)
        raise RuntimeError("the server did not start:\n" + (self.root / "log").read_text(errors="replace"))

    def time_used(self):
        """The seconds of CPU time of the server's processes, those that have ended included."""
        own = self.process.pid
        found = [words for number, words in stats() if own in (number, int(words[1]))]
        return sum(int(ticks) for words in found for ticks in words[11:15]) / os.sysconf("SC_CLK_TCK")

    # ---- questions

    def psql(self, *arguments):
        return [str(self.bin / "psql"), "-X", "-q", "-A", "-t", "-F", "|", *arguments]

    def run(self, sql, database="postgres", folder=None):
        """What psql answers, in a folder: the rows, with errors among them (SQLSTATE first); it goes on after an error."""
        done = subprocess.run(self.psql("-v", "VERBOSITY=verbose", "-d", database), input=sql, env=self.environment,
                              stdout=subprocess.PIPE, stderr=subprocess.STDOUT, text=True, cwd=folder)
        return done.stdout.rstrip("\n")

    def ask(self, sql, database="postgres"):
        """The rows of a text that has no error."""
        done = subprocess.run(self.psql("-v", "ON_ERROR_STOP=1", "-d", database), input=sql, env=self.environment,
                              stdout=subprocess.PIPE, stderr=subprocess.PIPE, text=True)
        if done.returncode != 0:
            raise RuntimeError(done.stderr.strip())
        return done.stdout.rstrip("\n")

    def has_extension(self, name, package):
        """Whether an extension is here, whose package is installed where that may be; %s in its name is the server's version."""
        available = "SELECT count(*) FROM pg_available_extensions WHERE name = '%s'" % name
        if self.ask(available) == "0":
            get(package % self.ask("SELECT split_part(current_setting('server_version'), '.', 1)"))
            self.link()
        return self.ask(available) == "1"

    def tool(self, name, *arguments):
        """Runs a program of the server's, such as pg_dump."""
        return subprocess.run([str(self.bin / name), *arguments], env=self.environment, stdout=subprocess.PIPE,
                              stderr=subprocess.PIPE, text=True, check=True).stdout

    def file(self, name):
        """The path of a file that both this process and the server may write."""
        return self.root / "files" / name


class Session:
    """One psql that stays, and so one backend."""

    def __init__(self, server, database="postgres"):
        self.as_user = server.as_user
        psql = server.psql("-v", "VERBOSITY=verbose", "-d", database)
        self.process = subprocess.Popen(psql, env=server.environment, text=True, stdin=subprocess.PIPE, stdout=subprocess.PIPE,
                                        stderr=subprocess.STDOUT)
        self.pid = int(self.ask("SELECT pg_backend_pid();"))

    def __enter__(self):
        return self

    def __exit__(self, *_):
        self.process.stdin.close()
        self.process.stdout.close()
        self.process.wait()

    def send(self, sql):
        self.process.stdin.write(sql + "\n")
        self.process.stdin.flush()

    def ask(self, sql):
        """What psql answers to a text, errors among it."""
        self.send(sql + "\n\\echo ---- end")
        lines = []
        for line in self.process.stdout:
            if line == "---- end\n":
                return "\n".join(lines)
            lines.append(line.rstrip("\n"))
        raise RuntimeError("the session ended:\n" + "\n".join(lines))

    def contexts(self):
        """The bytes of the backend's memory contexts."""
        return int(self.ask("SELECT sum(total_bytes) FROM pg_backend_memory_contexts;"))

    def status(self, name):
        """Kilobytes that the system says of the backend."""
        with open("/proc/%d/status" % self.pid) as status:
            return int(dict(line.split(":", 1) for line in status)[name].split()[0])

    def resident(self):
        """The backend's resident kilobytes that are its own."""
        return self.status("RssAnon")

    def size(self):
        """The bytes of the backend's address space."""
        return 1024 * self.status("VmSize")

    def limit_size(self, size):
        """Bounds the backend's address space, which its own user may do."""
        subprocess.run(["prlimit", "--pid", str(self.pid), "--as=%s:" % size], check=True, **self.as_user)

    def answers_within(self, query, most, step):
        """All answers to a query while the address space may grow by so many bytes: each multiple of a step below the most."""
        answers = set()
        for more in range(0, most, step):
            self.limit_size(self.size() + more)
            answers.add(self.ask(query))
        self.limit_size("unlimited")
        return answers
