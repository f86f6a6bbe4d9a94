#!/usr/bin/env python3
# SPDX-License-Identifier: Apache-2.0
"""Tries the mutants of the crates: edits that make a function wrong, each of which the prover has to reject.

    scripts/mutants.py [--all] [--log FOLDER] [CRATE ..]       those of mutants/CRATE, of all crates if none is named
    scripts/mutants.py [CRATE ..] --only NAME ..                these alone, of crates/CRATE/must-fail too
    scripts/mutants.py --as-proved [--all] [--log FOLDER]       next to `rt ci`, whose output it reads: those of each crate once
                                                                that is proved

Otherwise run `rt ci` or `rt check` first: a check reads the libraries that they leave. A mutant is a file NAME.edit with a line
'file: src/..' and pairs of lines 'old: TEXT' and 'new: TEXT', as in crates/CRATE/must-fail, whose mutants `rt ci` tries
itself, one by one.

The mutants of a crate are applied together, as far as they change different functions, and one check tries them all. Each
changed function must then be rejected at a goal of its own. That it calls a rejected function is not enough. A
mutant that a check doesn't settle in this way is tried alone, and the prover's exit status decides. So is one that changes
more than the body of a function, for example a contract, a type or a lemma.

A rejected mutant is kept under ~/.cache/hll-sketches/mutants (or $XDG_CACHE_HOME), by the checksum of all that was read, and
not tried again while that stays the same; --all tries each of them. The last line is 'N passed, M failed'. The exit status is 0 if
all were rejected, 1 if not, and 2 if the command can't be understood.
"""
import argparse
import collections
import contextlib
import hashlib
import json
import os
import pathlib
import re
import shutil
import signal
import sys
import tempfile
import threading
from concurrent.futures import FIRST_COMPLETED, ThreadPoolExecutor, wait

sys.dont_write_bytecode = True
from prover import CALLEE, NAMES, OWN, PROVED, Progress, Prover, Stopped, Unusable

ROOT = pathlib.Path(__file__).resolve().parent.parent
TOGETHER = 30       # about the most mutants in one check: two checks side by side end sooner than a long one
NICE = 10           # next to `rt ci`, which the gate waits for

# What came of a mutant. `how` says whether it was tried "together" with others or "alone", or was "kept" from an earlier run.
Verdict = collections.namedtuple("Verdict", "mutant word how words")
REJECTED, MISSED, BAD, UNTRIED, EMPTY = "rejected", "NOT REJECTED", "BAD EDIT", "NOT TRIED", "SHOWS NOTHING"


# ---- Mutants, and the function that each changes ----

class Unfit(Exception):
    """Why an edit can't be applied."""


class Mutant:
    """One edit: its file, its pairs of old and new text, and the body that it changes if it changes one body alone."""

    def __init__(self, path, crate, sources):
        self.path, self.name, self.crate = path, path.stem, crate
        self.sum = hashlib.sha256(path.name.encode() + path.read_bytes()).hexdigest()
        self.file, self.pairs, self.body, self.fault = "", [], None, ""
        try:
            self.read(sources)
        except (OSError, UnicodeError, Unfit) as why:
            self.fault = str(why)

    def read(self, sources):
        """Reads the edit. Raises `Unfit` if it can't be applied to the crate's sources."""
        lines = self.path.read_text().splitlines()
        if not lines or not re.fullmatch(r"file: (src|specs|proofs)/\S+", lines[0]) or sum(it.startswith("file: ") for it in lines) > 1:
            raise Unfit("its first line has to be the only one that names a file of src/, specs/ or proofs/")
        self.file = lines[0][6:]
        olds, news = ([it[5:] for it in lines if it.startswith(word)] for word in ("old: ", "new: "))
        if not olds or len(olds) != len(news):
            raise Unfit("it needs as many lines 'new: ' as lines 'old: ', and at least one")
        self.pairs = list(zip(olds, news))
        text = (sources / self.file).read_text()
        if self.applied(text) == text:
            raise Unfit("it changes nothing")
        self.lines = {text.count("\n", 0, text.index(old)) for old in olds if old in text}
        bodies = {body_around(text.split("\n"), line) for line in self.lines} if self.file.startswith("src/") else {None}
        self.body = bodies.pop() if len(bodies) == 1 else None

    def applied(self, text):
        """Returns a text with the edit applied. Raises `Unfit` if an old text doesn't stand in it exactly once."""
        for old, new in self.pairs:
            if text.count(old) != 1:
                raise Unfit("an old text stands %d times in %s, and not once: %s" % (text.count(old), self.file, old.strip()[:60]))
            text = text.replace(old, new)
        return text

    def function(self):
        """Returns the end of the prover's name of the changed function, or None if more than one body is changed. The method of
        a type is named by the type, since the block `impl` may stand in another module than the type."""
        if self.body is None:
            return None
        modules = [it for it in pathlib.PurePath(self.file).with_suffix("").parts[1:] if it not in ("lib", "main", "mod")]
        return "::".join([*(self.body.around or modules), self.body.name])


# A body: the names of the blocks `mod` and `impl` around it, the function's name, and its first and last line from 0.
Body = collections.namedtuple("Body", "around name first last")
HEAD = re.compile(r"( *)(?:pub(?:\([a-z]+\))? |unsafe )*fn (\w+)")


def body_around(lines, at):
    """Returns the body in which a line stands, or None. It goes by the layout of `rt fmt`: what belongs to an item is indented
    deeper than the item. A line of a contract is in no body. Nor is one of a `const fn`, on which types may depend."""
    for top in range(at, -1, -1):
        head = HEAD.match(lines[top])
        if head:
            break
    else:
        return None
    indent = len(head[1])
    edge = [it for it in range(top, len(lines)) if it == top or (lines[it].strip() and len(lines[it]) - len(lines[it].lstrip()) == indent)]
    start = next((it for it in edge if lines[it].endswith(("{", "}"))), None)
    if start is None:
        return None
    end = next((it for it in edge if it > start and lines[it].strip() == "}"), -1) if lines[start].endswith("{") else start
    if not start <= at <= end or (at == start and end > start):
        return None
    while lines[top - 1].lstrip().startswith("#["):
        top -= 1        # a note of the prover can name the line of an attribute
    return Body(names_around(lines, top, indent), head[2], top, end)


def names_around(lines, at, indent):
    """Returns the names of the blocks `mod`, `trait` and `impl` around a line, outermost first: of `impl Trait for Type` the
    prover's name TypeTrait."""
    names = ()
    for line in reversed(lines[:at]):
        deep = len(line) - len(line.lstrip())
        if not line.strip() or deep >= indent or not line.rstrip().endswith("{"):
            continue
        indent = deep
        block = re.match(r"\s*(?:pub(?:\([a-z]+\))? )?(?:mod|trait) (\w+)", line)
        made = re.match(r"\s*impl(?:<.*?>)? (?:([\w:]+)(?:<.*?>)? for )?(?:[\w:]+::)?(\w+)", line)
        names = (block[1] if block else made[2] + (made[1] or "").split("::")[-1] if made else "?", *names)
    return names


def rounds_of(mutants):
    """Returns the mutants in as few rounds as are needed for no function to be changed twice in one, each about as long."""
    of = collections.Counter(it.function() for it in mutants)
    rounds = [[] for _ in range(max([-(-len(mutants) // TOGETHER), *of.values()]))]
    for mutant in sorted(mutants, key=lambda it: (-of[it.function()], it.function())):
        free = [it for it in rounds if mutant.function() not in {other.function() for other in it}]
        min(free, key=len).append(mutant)
    return rounds


# ---- The work on one crate ----

class Work:
    """The mutants of one crate, and how they are tried. `is_proved` says that `rt ci` has just proved the crate: then a round
    needs no check of the crate without mutants."""

    def __init__(self, prover, name, mutants, is_proved, store):
        self.prover, self.name, self.mutants, self.is_proved = prover, name, mutants, is_proved
        self.sources = pathlib.Path(prover.crate(name).folder)
        self.store, self.room, self.fault, self.alone = store, None, None, threading.Lock()

    def start(self):
        """Returns a folder of what a check of the crate without mutants proved, or raises `Unusable` if it isn't proved."""
        with self.alone:
            if self.room is None:
                self.room = tempfile.mkdtemp(prefix="mutants-kept-")
                self.fault = self.check_plain(pathlib.Path(self.room, "kept"))
        if self.fault:
            raise Unusable(self.fault)
        return pathlib.Path(self.room, "kept")

    def check_plain(self, keep):
        """Checks the crate without mutants, keeps in a folder what is proved, and returns what is wrong, if anything."""
        begin = self.prover.kept_work(self.name)
        if not begin:
            keep.mkdir()
        heard = self.prover.check(self.name, {}, start=begin, keep=keep, label="plain")
        print("%s without mutants: %s" % (self.name, heard.cost), flush=True)
        if not self.has_known_libraries():
            print("note: nothing shows that the libraries below %s are built of their sources as they stand" % self.name)
        return "" if heard.status == 0 else "the crate is not proved without mutants: " + heard.first_error()

    def has_known_libraries(self):
        """Returns whether the libraries below the crate are known to be built of their sources as they stand."""
        return self.is_proved or self.prover.has_stamps(self.name)

    def keep(self, verdicts):
        """Keeps verdicts for later runs, unless libraries aren't known or sources were changed meanwhile."""
        if self.has_known_libraries() and self.prover.sum_of(self.name) == self.store.sum:
            self.store.keep(verdicts)

    def close(self):
        """Removes what was kept for the time of the run."""
        if self.room:
            shutil.rmtree(self.room, ignore_errors=True)

    def check(self, mutants, functions=(), start=None):
        """Checks the crate with these mutants, and says what it cost."""
        texts = {it.file: (self.sources / it.file).read_text() for it in mutants}
        for mutant in mutants:
            texts[mutant.file] = mutant.applied(texts[mutant.file])
        label = mutants[0].name if len(mutants) == 1 else "%s-and-%d" % (mutants[0].name, len(mutants) - 1)
        heard = self.prover.check(self.name, texts, functions, start, label=label if functions else label + "-alone")
        some = "%d mutants" % len(mutants) if len(mutants) > 1 else mutants[0].name
        print("%s, %s%s: %s" % (self.name, some, "" if functions else ", alone", heard.cost), flush=True)
        return heard

    def try_round(self, mutants):
        """Returns verdicts on mutants of different functions: by one check where that can be read, and else on each alone."""
        try:
            known = [it for it in mutants if it.function()]
            settled = self.together(known, None if self.is_proved else self.start()) if known else {}
            return [settled.get(it) or self.try_alone(it) for it in mutants]
        except Unusable as why:
            return [Verdict(it, UNTRIED, "alone", str(why)) for it in mutants]

    def together(self, mutants, start):
        """Returns the verdicts that one check of all these mutants settles, by mutant."""
        try:
            heard = self.check(mutants, [it.function() for it in mutants], start)
        except Unfit:
            return {}       # the old text of one mutant is gone with the change of another
        if not heard.reached_the_prover():
            return self.without_bad(mutants, heard, start)
        names = {it: named(heard, it) for it in mutants}
        others = [it for it in heard.functions if it not in names.values() and not is_closure_in(it, mutants)]
        strange = [it for it in others if heard.of(it)[0] not in (PROVED, CALLEE)]
        if strange or heard.status != 1:
            print("%s: the check counts for nothing: %s" % (self.name, strange or "status %d" % heard.status), flush=True)
            return {}
        settled = {}
        for mutant, function in names.items():
            notes = heard.notes_in(mutant.file, mutant.body.first, mutant.body.last)
            kind, words = heard.of(function, notes)
            if kind == OWN:
                settled[mutant] = Verdict(mutant, REJECTED, "together", "%s: %s" % (function, words))
        return settled

    def without_bad(self, mutants, heard, start):
        """Returns the verdicts of checks without those mutants that don't compile: the compiler's lines name them, or halves do."""
        bad = [it for it in mutants if any((it.file, line) in heard.bad_lines for line in it.lines)]
        good = [it for it in mutants if it not in bad]
        if len(mutants) == 1 or not good:
            return {}
        if bad:
            return self.together(good, start)
        half = len(mutants) // 2
        return {**self.together(mutants[:half], start), **self.together(mutants[half:], start)}

    def try_alone(self, mutant):
        """Returns the verdict on one mutant by the exit status of a check of the whole crate."""
        heard = self.check([mutant], start=self.start())
        if heard.status == 0:
            return Verdict(mutant, MISSED, "alone", "the crate is proved with it")
        if heard.status != 1:
            return Verdict(mutant, UNTRIED, "alone", "the check ended with status %d: %s" % (heard.status, heard.first_error()))
        if not heard.reached_the_prover():
            return Verdict(mutant, BAD, "alone", heard.first_error())
        function = mutant.function() and named(heard, mutant)
        kind, words = heard.of(function, heard.notes_in(mutant.file, mutant.body.first, mutant.body.last)) if function else ("", "")
        if kind == NAMES:
            return Verdict(mutant, EMPTY, "alone", "it is rejected only because a proof names what it takes away: " + words)
        return Verdict(mutant, REJECTED, "alone", "%s: %s" % (function, words) if kind == OWN else heard.first_error())


def named(heard, mutant):
    """Returns the prover's name of the function that a mutant changes, among those that a check named, or None."""
    found = [it for it in heard.functions if ("::" + it).endswith("::" + mutant.function())]
    return found[0] if len(found) == 1 else None


def is_closure_in(function, mutants):
    """Returns whether a function is a closure in a body that one of the mutants changes."""
    return any("::fn::%s::" % it.body.name in function for it in mutants)


# ---- All crates ----

class Store:
    """The mutants of a crate that earlier runs saw rejected, by the checksum of all that they read. `known` are those that needn't
    be tried again."""

    def __init__(self, name, sum, is_whole):
        self.sum, self.found = sum, {}
        text = hashlib.sha256(sum.encode() + pathlib.Path(__file__).read_bytes()).hexdigest()
        self.file = cache() / ("%s-%s.json" % (name, text[:32]))
        with contextlib.suppress(OSError, ValueError):
            self.found = json.loads(self.file.read_text())
        self.known = {} if is_whole else dict(self.found)

    def keep(self, verdicts):
        """Keeps the verdicts of rejected mutants. A file that can't be written is no fault: the next run tries them again."""
        self.found.update({it.mutant.sum: it.words for it in verdicts if it.word == REJECTED})
        with contextlib.suppress(OSError):
            self.file.parent.mkdir(parents=True, exist_ok=True)
            with tempfile.NamedTemporaryFile("w", dir=self.file.parent, delete=False) as made:
                json.dump(self.found, made)
            os.replace(made.name, self.file)


def cache():
    """Returns the folder in which results are kept."""
    return pathlib.Path(os.environ.get("XDG_CACHE_HOME") or pathlib.Path.home() / ".cache") / "hll-sketches" / "mutants"


def found_mutants(root, folder, crates, only):
    """Returns the mutants by crate, and what is wrong with the folders."""
    listed = [it.name for it in sorted((root / "crates").iterdir()) if (it / "src").is_dir()]
    faults = ["%s: no crate has this name" % it for it in crates if it not in listed]
    if folder.is_dir():
        faults += ["%s is the folder of no crate" % it for it in sorted(folder.iterdir()) if it.name not in listed]
    found = {}
    for name in listed:
        sources = root / "crates" / name
        places = [folder / name] + [sources / "must-fail"] * bool(only)
        files = [it for place in places if place.is_dir() for it in sorted(place.iterdir())]
        if crates and name not in crates:
            continue
        faults += ["%s is no mutant: its name has to end in .edit" % it for it in files if it.suffix != ".edit"]
        mutants = [Mutant(it, name, sources) for it in files if it.suffix == ".edit" and (not only or it.stem in only)]
        if mutants:
            found[name] = mutants
    names = {it.name for mutants in found.values() for it in mutants}
    faults += ["%s: no mutant has this name" % it for it in only if it not in names]
    return found, faults + ["no mutant was found"] * (not found and not faults)


class Trial:
    """The mutants of all crates, which are tried side by side, as many as there is room for. `found` has them by crate; those of
    a crate are begun once it is proved, if `progress` says how far `rt ci` is, and else at once."""

    def __init__(self, prover, found, is_whole=False, progress=None):
        self.prover, self.progress, self.left = prover, progress, dict(found)
        self.stores = {name: Store(name, prover.sum_of(name), is_whole) for name in found}      # as `rt ci` begins, so what it reads
        self.works, self.waiting, self.running = [], [], {}
        self.pool = ThreadPoolExecutor(os.cpu_count() or 1)

    def verdicts(self):
        """Gives the verdicts as they come, some at a time."""
        try:
            while self.left or self.waiting or self.running:
                yield from self.begun()
                self.submit()
                if not self.running and self.left:
                    self.progress.wait(2)
                for it in wait(self.running, timeout=2, return_when=FIRST_COMPLETED).done:
                    self.running.pop(it).keep(it.result())
                    yield it.result()
        finally:
            self.close()

    def begun(self):
        """Begins those crates that can be begun, and gives the verdicts on their mutants that are known at once."""
        is_last = self.progress is None or self.progress.has_ended
        for name in [it for it in self.left if self.progress is None or it in self.progress.proved]:
            yield from self.begin(name, self.left.pop(name))
        if is_last:
            for mutants in self.left.values():
                yield [Verdict(it, UNTRIED, "alone", "`rt ci` has not proved the crate") for it in mutants]
            self.left = {}

    def begin(self, name, mutants):
        """Begins a crate: adds its jobs, each of its work and the mutants to try together, and gives the verdicts that are known."""
        store = self.stores[name]
        kept = [it for it in mutants if it.sum in store.known and not it.fault]
        yield [Verdict(it, REJECTED, "kept", store.known[it.sum]) for it in kept]
        yield [Verdict(it, BAD, "alone", it.fault) for it in mutants if it.fault]
        new = [it for it in mutants if it not in kept and not it.fault]
        lacking = new and self.prover.lacking(name)
        if lacking:
            yield [Verdict(it, UNTRIED, "alone", "run `rt ci` first: these libraries are not built: " + " ".join(lacking)) for it in new]
        elif new:
            work = Work(self.prover, name, new, self.progress is not None, store)
            self.works.append(work)
            self.waiting += [(work, it) for it in rounds_of([it for it in new if it.function()])]
            self.waiting += [(work, [it]) for it in new if not it.function()]
            self.waiting.sort(key=lambda it: -len(it[1]) * self.prover.need(it[0].name))      # the longest first

    def submit(self):
        """Begins the next job if there is room. Next to `rt ci`, half of the processors are left to it."""
        is_alone = self.progress is None or self.progress.has_ended
        has_place = is_alone or len(self.running) < max(1, (os.cpu_count() or 1) // 2)
        if self.waiting and (not self.running or has_place and self.prover.has_room(self.waiting[0][0].name)):
            work, mutants = self.waiting.pop(0)
            self.running[self.pool.submit(work.try_round, mutants)] = work

    def close(self):
        """Ends what runs, and removes what was kept for the time of the run."""
        if self.running:
            self.prover.stop()
        self.pool.shutdown()
        for work in self.works:
            work.close()


def main(words):
    """Tries the mutants that the command line asks for, and prints what came of each and the counts."""
    given = read_words(words)
    if not shutil.which("rt"):
        sys.exit("mutants.py: the command rt, which has the prover, is not on the path")
    for name in (signal.SIGTERM, signal.SIGHUP):
        signal.signal(name, lambda *_: sys.exit(143))       # so that checks end and copies are removed
    found, faults = found_mutants(ROOT, ROOT / "mutants", given.crate, given.only)
    for it in faults:
        print("FAIL: " + it)
    if given.log:
        given.log.mkdir(parents=True, exist_ok=True)
    passed, failed, progress = 0, len(faults), None
    if given.as_proved:
        os.nice(NICE)
        sys.stdin.reconfigure(errors="replace")
        progress = Progress(sys.stdin)
    for verdicts in Trial(Prover(ROOT, given.log), found, given.all, progress).verdicts():
        rejected = sum(it.word == REJECTED for it in verdicts)
        passed, failed = passed + rejected, failed + len(verdicts) - rejected
        report(verdicts, given.only)
    print("%d passed, %d failed" % (passed, failed))
    return 1 if failed else 0


def report(verdicts, each):
    """Prints the verdicts on mutants of one crate; of those that were kept, and of those that can't be tried for one reason, only how
    many there are, unless each is asked for."""
    many = {it.words for it in verdicts if it.word == UNTRIED and len(verdicts) > 1 and not each}
    kept = [it for it in verdicts if it.how == "kept" and not each]
    for it in verdicts:
        if it not in kept and it.words not in many:
            mark = "" if it.word == REJECTED else "FAIL: "
            print("%s%s/%s: %s, %s: %s" % (mark, it.mutant.crate, it.mutant.name, it.word, it.how, it.words[:200]), flush=True)
    for words in sorted(many):
        count, crate = sum(it.words == words for it in verdicts), verdicts[0].mutant.crate
        print("FAIL: %s: %s, %d mutants: %s" % (crate, UNTRIED, count, words[:200]), flush=True)
    if kept:
        count, crate = len(kept), kept[0].mutant.crate
        print("kept: %s: an earlier run over the same sources saw %d of its mutants rejected" % (crate, count), flush=True)


def read_words(words):
    """Returns what the command line asks for."""
    parser = argparse.ArgumentParser(prog="mutants.py", description=__doc__, formatter_class=argparse.RawDescriptionHelpFormatter)
    parser.add_argument("--as-proved", action="store_true", help="read what `rt ci` prints, and try the mutants of each crate once it is proved")
    parser.add_argument("--all", action="store_true", help="also try what earlier runs saw rejected")
    parser.add_argument("--log", type=pathlib.Path, metavar="FOLDER", help="write there what each check says")
    parser.add_argument("--only", nargs="+", default=[], metavar="NAME", help="try these mutants alone")
    parser.add_argument("crate", nargs="*", metavar="CRATE")
    return parser.parse_args(words)


if __name__ == "__main__":
    try:
        sys.exit(main(sys.argv[1:]))
    except (KeyboardInterrupt, Stopped):
        sys.exit(130)
