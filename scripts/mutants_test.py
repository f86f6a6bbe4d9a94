#!/usr/bin/env python3
# SPDX-License-Identifier: Apache-2.0
"""Tests scripts/mutants.py: with answers of a prover that are made up here, and with the prover itself on mutants of hll_base
whose answers are known. Some of them mean the same as the code, so they must be reported as not rejected, also where they
call a function that another mutant makes wrong. Takes some minutes, and a second where the same was tested before: what
passed is kept as the mutants are.

    scripts/mutants_test.py [--all]

Prints 'N passed, M failed' at the end.
"""
import contextlib
import hashlib
import io
import pathlib
import re
import sys
import tempfile
import unittest.mock

sys.dont_write_bytecode = True
import mutants
import prover
from mutants import BAD, MISSED, REJECTED, ROOT, UNTRIED

CRATE = "hll_base"
FIRST = (
    "self.bytes.extend_from_slice(bytes)?;",
    "let Some((first, rest)) = bytes.split_first() else { return Ok(()); }; self.bytes.push(*first)?; self.bytes.extend_from_slice(rest)?;",
)
# Mutants: the file, the old and the new text, the verdict, and how it has to come about.
REAL = {
    "same": ("family.rt", ("if id == self.id {", "if self.id == id {"), MISSED, "alone"),
    "same_with_a_proof_by_hand": (
        "hash.rt", ("    halves.absorb_tail(rest);", "    let tail = rest; halves.absorb_tail(tail);"), MISSED, "alone"),
    "same_of_a_wrong_callee": (
        "codec.rt", ("self.write(&u32::to_le_bytes(number))", "let bytes = u32::to_le_bytes(number); self.write(&bytes)"), MISSED, "alone"),
    "same_of_a_trait": ("hash.rt", ("        self.finish128().0", "        let both = self.finish128(); both.0"), MISSED, "alone"),
    "wrong_callee": ("codec.rt", FIRST, REJECTED, "together"),
    "wrong_of_a_wrong_callee": (
        "codec.rt", ("self.write(&u64::to_le_bytes(number))", "self.write(&u64::to_be_bytes(number))"), REJECTED, "together"),
    "wrong_with_a_proof_by_hand": (
        "hash.rt", ("halves.absorb_rest(&self.block, self.partial);", "halves.absorb_rest(&self.block, 0);"), REJECTED, "together"),
    "wrong_type": ("cursor.rt", ("buffer.copy_from_slice(first);", 'buffer.fill("x");'), BAD, "alone"),
    "of_a_contract": (
        "codec.rt", ("        ensures { result.items ≡ self }", "        ensures { result.items ≡ self ++ 1 ∷ [] }"), REJECTED, "alone"),
    "of_a_constant": (
        "family.rt", ("    pub const HLL: Family = Family { id: 7 };", "    pub const HLL: Family = Family { id: 8 };"), BAD, "alone"),
    "absent": ("family.rt", ("no such text", "another"), BAD, "alone"),
}
# What of them is tried once more by a runner that finds nothing in what the prover says.
UNREAD = {"same": (MISSED, "alone"), "wrong_with_a_proof_by_hand": (REJECTED, "alone")}

# What a prover may say when the functions `Family::validate_id` and `finish128` are changed, its status, whether it says it
# of both together, and the verdicts that follow on both if each alone is proved.
LINE = "fn hll_base::%s: %s\n"
ID, FINISH, ABOVE = "family::Family::validate_id", "hash::MurmurHash3X64128::finish128", "hash::hash_of_bytes"
OWN = "no proof: expected answers in ./proofs/x/Answers.antt; `search` did not prove `returns`"
CALLEE = "no proof: it calls `hll_base::halves::mix`, which is not proved"
END = "only=9 proved=7\n"
MADE_UP = {
    "both are rejected": (LINE % (ID, OWN) + LINE % (FINISH, OWN) + END, 1, [REJECTED, REJECTED]),
    "one is rejected as it calls another": (LINE % (ID, CALLEE) + LINE % (FINISH, OWN) + END, 1, [MISSED, REJECTED]),
    "one is proved": (LINE % (ID, "proved") + LINE % (FINISH, OWN) + END, 1, [MISSED, REJECTED]),
    "one is not named": (LINE % (FINISH, OWN) + END, 1, [MISSED, REJECTED]),
    "a caller is rejected as it calls them": (LINE % (ID, OWN) + LINE % (FINISH, OWN) + LINE % (ABOVE, CALLEE) + END, 1, [REJECTED, REJECTED]),
    "a function that is not changed is rejected": (LINE % (ID, OWN) + LINE % (FINISH, OWN) + LINE % (ABOVE, OWN) + END, 1, [MISSED, MISSED]),
    "the words are new": (LINE % (ID, "refuted at x") + LINE % (FINISH, "refuted") + END, 1, [MISSED, MISSED]),
    "the status is another": (LINE % (ID, OWN) + LINE % (FINISH, OWN) + END, 3, [MISSED, MISSED]),
    "the last line lacks": (LINE % (ID, OWN) + LINE % (FINISH, OWN), 1, [MISSED, MISSED]),
    "nothing": ("", 1, [MISSED, MISSED]),
}


class MadeUp:
    """Stands for the prover: says one text of a round, and another of the crate or one mutant alone."""

    def __init__(self, text, status, alone=("logic=proved\n", 0)):
        self.answers = {True: (text, status), False: alone}

    def crate(self, name):
        return type("Crate", (), {"folder": str(ROOT / "crates" / name)})

    def kept_work(self, name):
        return None

    def has_stamps(self, name):
        return True

    def check(self, name, texts, functions=(), start=None, keep=None, label=""):
        return prover.Heard(*(self.answers[bool(functions)] if texts else ("logic=proved\n", 0)))


def mutants_of(folder, names):
    """Writes some of the real mutants into a folder for the crate, and reads them."""
    place = pathlib.Path(folder) / CRATE
    place.mkdir()
    for name in names:
        file, (old, new), *_ = REAL[name]
        (place / (name + ".edit")).write_text("file: src/%s\nold: %s\nnew: %s\n" % (file, old, new))
    found, faults = mutants.found_mutants(ROOT, pathlib.Path(folder), [CRATE], [])
    assert not faults, faults
    return found[CRATE]


def made_up_words(some, prover):
    """Returns the verdicts on mutants by a prover that is made up."""
    work = mutants.Work(prover, CRATE, some, True, None)
    with contextlib.redirect_stdout(io.StringIO()), contextlib.closing(work):
        return [it.word for it in work.try_round(some)]


def try_made_up():
    """Gives each made-up answer, and whether the right verdicts follow."""
    with tempfile.TemporaryDirectory() as folder:
        both = mutants_of(folder, ["same", "wrong_with_a_proof_by_hand"])
    for name, (text, status, wanted) in MADE_UP.items():
        got = made_up_words(both, MadeUp(text, status))
        yield "where " + name, got, wanted
    for name, alone, wanted in (
        ("it is killed", ("", -9), UNTRIED),
        ("it gives no verdict", ("rattle: no verdict\n", 3), UNTRIED),
        ("it rejects in new words", ("a word\nlogic=not-proved x\n", 1), REJECTED),
        ("it stops early", ("error[E0308]: x\n", 1), BAD),
    ):
        yield "where alone " + name, made_up_words(both[:1], MadeUp("", 1, alone)), [wanted]


def try_progress():
    """Gives what is read of the lines of `rt ci`."""
    progress = prover.Progress(iter([
        "== hll_base\n", "rt: hll_base proved\n", "rt: hll_base: its tests are proved\n", "rt: hll_text: another run on this machine is proving the same; waiting for it\n",
        "rt: hll_kernels is kept: an earlier run on this machine proved the same files over the same libraries\n", "rt: hll_c NOT PROVED\n"]))
    yield "a crate that is proved", progress.wait_for(it for it in [CRATE]), True
    yield "a crate that an earlier run proved", progress.wait_for(it for it in [CRATE, "hll_kernels"]), True
    yield "a crate that is not", progress.wait_for(it for it in [CRATE, "hll_c"]), False
    yield "all that is proved", (progress.proved, progress.has_ended), ({CRATE, "hll_kernels"}, True)


def try_folders():
    """Gives what must be a fault of the folders of mutants."""
    for name, made, wanted in (
        ("a folder of no crate", "hll_bose/a.edit", "is the folder of no crate"),
        ("a file that is no mutant", "hll_base/a.edits", "is no mutant"),
        ("no mutant", None, "no mutant was found"),
    ):
        with tempfile.TemporaryDirectory() as folder:
            if made:
                place = pathlib.Path(folder, made)
                place.parent.mkdir()
                place.write_text("")
            _, faults = mutants.found_mutants(ROOT, pathlib.Path(folder), [], [])
        yield name, any(wanted in it for it in faults), True
    _, faults = mutants.found_mutants(ROOT, ROOT / "mutants", ["hll_bose"], ["nobody"])
    yield "names of no crate and no mutant", len(faults), 2


def try_real(real):
    """Gives what the prover and the runner make of the real mutants."""
    with tempfile.TemporaryDirectory() as folder:
        every = mutants_of(folder, REAL)
    good = [it for it in every if not it.fault]
    yield "an old text that is absent", [it.name for it in every if it.fault], ["absent"]
    with contextlib.closing(mutants.Work(real, CRATE, good, False, None)) as work:
        rounds = mutants.rounds_of([it for it in good if it.function()]) + [[it] for it in good if not it.function()]
        for it in [it for some in rounds for it in work.try_round(some)]:
            yield "%s: %s" % (it.mutant.name, it.words[:120]), (it.word, it.how), REAL[it.mutant.name][2:]
        for it in verdicts_unread(work, [it for it in good if it.name in UNREAD]):
            yield "%s, where nothing is read" % it.mutant.name, (it.word, it.how), UNREAD[it.mutant.name]


def verdicts_unread(work, some):
    """Returns the verdicts on mutants if nothing is found in what the prover says of functions."""
    with unittest.mock.patch.object(prover, "STATUS", re.compile("nothing")):
        return work.try_round(some)


def main(words):
    """Tries all that was not tried before, and prints the counts."""
    if words not in ([], ["--all"]):
        sys.exit(__doc__)
    real = prover.Prover(ROOT)
    sum = hashlib.sha256(real.sum_of(CRATE).encode())
    for file in (mutants.__file__, __file__):
        sum.update(pathlib.Path(file).read_bytes())
    kept = mutants.cache() / ("test-%s" % sum.hexdigest()[:32])
    if kept.is_file() and not words:
        print("kept: an earlier run over the same sources passed\n" + kept.read_text(), end="")
        return 0
    passed, failed = 0, 0
    for tests in (try_made_up(), try_progress(), try_folders(), try_real(real)):
        for name, got, wanted in tests:
            is_well = got == wanted
            passed, failed = passed + is_well, failed + (not is_well)
            print("%s%s: %s%s" % ("" if is_well else "FAIL: ", name, got, "" if is_well else ", and not %s" % (wanted,)), flush=True)
    counts = "%d passed, %d failed\n" % (passed, failed)
    with contextlib.suppress(OSError):
        if not failed:
            kept.parent.mkdir(parents=True, exist_ok=True)
            kept.write_text(counts)
    print(counts, end="")
    return 1 if failed else 0


if __name__ == "__main__":
    sys.exit(main(sys.argv[1:]))
