# SPDX-License-Identifier: Apache-2.0
"""Results of tests as TAP (testanything.org), for scripts in Python: `bindings/tap.sh` is the same for a shell."""
import os
import sys
import time
import traceback
import unittest

# Whoever runs the tests: messages are English, and the tools of a system are found, as they are by root.
# (LANGUAGE goes before LC_ALL, unless that is C)
os.environ["LC_ALL"] = "C.UTF-8"
os.environ.pop("LANGUAGE", None)
os.environ["PATH"] = os.environ.get("PATH", "/usr/bin:/bin") + ":/usr/sbin:/sbin"


HUNG = 3600
"""The seconds after which something that is waited for hangs, or the machine is asleep. A machine that is merely busy is faster. What
may take only so long is limited by its CPU time."""


class Tap:
    """Prints the result of each test.

    `words` choose tests: those whose names have one of the words in them. All run if there are none.
    """

    def __init__(self, words=()):
        self.words = list(words)
        self.tests = self.failures = 0

    def chooses(self, name):
        """Whether a test of this name is to be run."""
        return not self.words or any(word in name for word in self.words)

    def result(self, name, passed, notes="", comparisons=0):
        """Prints a result; lines of `notes`, if it failed; and over how many comparisons it is."""
        self.tests += 1
        self.failures += not passed
        print("%s %d - %s" % ("ok" if passed else "not ok", self.tests, name.replace("#", "\\#").replace("\n", " ")))
        if notes and not passed:
            print("\n".join("# " + line for line in str(notes).splitlines()))
        if comparisons:
            print("# over %d comparisons" % comparisons)
        sys.stdout.flush()

    def skip(self, name, why):
        """Prints that a test can't be run here."""
        self.tests += 1
        print("ok %d - %s # SKIP %s" % (self.tests, name, why), flush=True)

    def finish(self):
        """Prints the plan. Returns the status of the script: 1 if a test failed, or none ran."""
        print("1..%d" % self.tests)
        if not self.tests:
            print("# no test was run" + (": none has a name with " + " or ".join(self.words) if self.words else ""))
        sys.stdout.flush()
        return 1 if self.failures or not self.tests else 0


def skip_all(why):
    """Prints that none of the tests of a script can be run here. Returns the status of the script."""
    print("1..0 # SKIP %s" % why)
    return 0


# ---- parts: functions that compare much


class Comparisons:
    """Counts comparisons, and keeps what the failed ones say."""

    def __init__(self):
        self.passed, self.failed, self.notes, self.skips = 0, 0, [], []

    def check(self, name, is_right, found=""):
        """Counts a comparison, and keeps what was found if it isn't right."""
        if is_right:
            self.passed += 1
        else:
            self.failed += 1
            self.notes.append("%s%s" % (name, ": %.600s" % (found,) if found != "" else ""))

    def equal(self, name, found, wanted):
        self.check(name, found == wanted, "%.200r in place of %.200r" % (found, wanted))

    def skip(self, name, why):
        """Notes what can't be compared here."""
        self.skips.append((name, why))


def run_part(tap, comparisons, name, part):
    """Runs a part as a test. One that breaks off, or that compares nothing, has failed."""
    if not tap.chooses(name):
        return
    begun = time.monotonic()
    try:
        part()
    except Exception as fault:
        comparisons.check("it broke off", False, "%s: %s" % (type(fault).__name__, fault))
    if not comparisons.passed + comparisons.failed + len(comparisons.skips):
        comparisons.check("nothing was compared", False)
    if comparisons.passed + comparisons.failed:
        notes = "\n".join(comparisons.notes[:50])
        tap.result(name, not comparisons.failed, notes, comparisons.passed + comparisons.failed)
    for what, why in comparisons.skips:
        tap.skip("%s, %s" % (name, what), why)
    comparisons.__init__()
    print("# %.1f s" % (time.monotonic() - begun), flush=True)


# ---- unit tests


class _Result(unittest.TestResult):
    """Prints each unit test as one test, however many subtests it has."""

    def __init__(self, tap):
        super().__init__()
        self.tap, self.notes, self.why = tap, [], None

    def startTest(self, test):
        super().startTest(test)
        self.notes, self.why = [], None

    def _fails(self, error, test):
        self.notes += [str(test), *"".join(traceback.format_exception(*error)).splitlines()]

    def addError(self, test, err):
        super().addError(test, err)
        self._fails(err, test)
        if not isinstance(test, unittest.TestCase):     # what precedes the tests of a class or a module
            self.tap.result(str(test), False, "\n".join(self.notes))

    def addFailure(self, test, err):
        super().addFailure(test, err)
        self._fails(err, test)

    def addSubTest(self, test, subtest, err):
        super().addSubTest(test, subtest, err)
        if err is not None:
            self._fails(err, subtest)

    def addSkip(self, test, reason):
        super().addSkip(test, reason)
        self.why = reason

    def addUnexpectedSuccess(self, test):
        super().addUnexpectedSuccess(test)
        self.notes.append("it succeeded, and should not")

    def stopTest(self, test):
        super().stopTest(test)
        if self.notes:
            self.tap.result(test.id(), False, "\n".join(self.notes))
        elif self.why is not None:
            self.tap.skip(test.id(), self.why)
        else:
            self.tap.result(test.id(), True)


def _tests_in(suite):
    for test in suite:
        if isinstance(test, unittest.TestSuite):
            yield from _tests_in(test)
        else:
            yield test


def run_unit_tests(tap, suite):
    """Runs the tests of a suite that are chosen."""
    chosen = unittest.TestSuite(test for test in _tests_in(suite) if tap.chooses(test.id()))
    chosen.run(_Result(tap))
