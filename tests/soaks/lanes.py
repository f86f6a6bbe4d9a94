# SPDX-License-Identifier: Apache-2.0
"""What the lanes of a soak share: batches of values with a plain model of their registers, a small disk, and memory over time.

A lane adds batches of integers to sketches, one sketch for each key, and records for each batch what it was told: confirmed, failed, or
nothing, as the process that added it was killed. The place where the sketches are also lists the batches that it contains. So at the
end of each round the lane knows exactly which registers each sketch must have: those of the listed batches. Each confirmed batch has
to be listed, and no failed one.
"""
import array
import collections
import contextlib
import json
import os
import pathlib
import random
import struct
import subprocess
import sys
import threading
import time

sys.path.insert(0, str(pathlib.Path(__file__).resolve().parent.parent))
from plain_hash import coupon_of  # noqa: E402
from plain_reader import Refused, read  # noqa: E402

LG_K, KEYS = 12, 10
SOME = 3000     # the most values of a batch
MANY = 60000    # with so many values in all, sketches are emptied: in fuller ones a batch that is lost shows less
CONFIRMED, FAILED, UNKNOWN = "confirmed", "failed", "unknown"
FEW = 8         # with fewer rounds nothing is said about a process's memory


def coupons_of(first, count):
    """The coupons of integers, by docs/FORMAT.md alone."""
    return array.array("I", (coupon_of(struct.pack("<q", value)) for value in range(first, first + count)))


def raise_registers(registers, coupons):
    """Takes the maximum of registers and coupons."""
    for coupon in coupons:
        slot, value = coupon & (1 << LG_K) - 1, coupon >> 26
        if registers[slot] < value:
            registers[slot] = value


def registers_of(image):
    """The registers of an image, as a plain reader reads it; those of its coupons if it has coupons."""
    value = read(image)
    if image[3] != LG_K:
        raise Refused("lg_k %d" % image[3])
    if image[7] & 3 == 2:
        return value[28:]
    registers = bytearray(1 << LG_K)
    raise_registers(registers, struct.unpack("<%dI" % (len(value[3:]) // 4), value[3:]))
    return bytes(registers)


class Batch:
    """Consecutive integers that are added to the sketch of a key."""

    def __init__(self, number, key, first, count):
        self.number, self.key, self.first, self.count, self.state = number, key, first, count, UNKNOWN
        self.coupons = coupons_of(first, count)


class Disk:
    """A directory on a small file system of its own, which can be filled; or just a directory, if none can be mounted here."""

    def __init__(self, place, megabytes):
        self.place = pathlib.Path(place)
        self.place.mkdir()
        words = ["mount", "-t", "tmpfs", "-o", "size=%dm,mode=755" % megabytes, "tmpfs", str(self.place)]
        self.is_small = os.getuid() == 0 and subprocess.run(words, stderr=subprocess.DEVNULL).returncode == 0
        self.ballast = self.place / "ballast"

    def fill(self, left):
        """Leaves at most so many bytes."""
        state = os.statvfs(self.place)
        with open(self.ballast, "wb") as file:
            if state.f_bavail * state.f_frsize > left:
                with contextlib.suppress(OSError):      # others write meanwhile
                    os.posix_fallocate(file.fileno(), 0, state.f_bavail * state.f_frsize - left)

    def free(self):
        self.ballast.unlink(missing_ok=True)


def resident(pid):
    """The kilobytes of memory that are a process's own, or None if it has ended."""
    try:
        with open("/proc/%d/status" % pid) as status:
            return int(dict(line.split(":", 1) for line in status)["RssAnon"].split()[0])
    except (OSError, KeyError):
        return None


class Lane:
    """One of the things that are used at the same time.

    `planted` is a fault that the lane makes by itself, to show that it is noticed: "lost" takes a confirmed batch away, and "memory"
    lets the memory of a process grow.
    """

    name, most_growth, growth_per_round = "", 4096, 0       # kilobytes

    def __init__(self, folder, seed, seconds, planted):
        self.folder, self.seconds, self.planted = pathlib.Path(folder), seconds, planted
        self.numbers = random.Random("%s %d" % (self.name, seed))
        self.figures, self.faults, self.lives = collections.Counter(), [], collections.defaultdict(list)
        self.lock, self.stopped = threading.Lock(), threading.Event()
        self.next_value, self.batches, self.registers = 1, {}, {}
        self.last_number, self.is_spoiled = 0, False
        self.empty()

    # ---- the plain model

    def empty(self):
        """The model of sketches that have just been emptied."""
        self.batches, self.counted = {}, set()
        self.registers = {key: bytearray(1 << LG_K) for key in range(KEYS)}

    def new_batch(self):
        """The next batch: new values, or sometimes values of an earlier one again."""
        with self.lock:
            key, count = self.numbers.randrange(KEYS), self.numbers.choice((1, 5, 40, 300, SOME))
            first = self.next_value
            if self.numbers.random() < 0.1:
                first = max(1, first - count)
            self.next_value = first + count
            self.last_number += 1
            number = self.last_number
        batch = Batch(number, key, first, count)
        with self.lock:
            self.batches[batch.number] = batch
        self.figures["batches"] += 1
        self.figures["values"] += count
        return batch

    def settle(self, batch, state):
        batch.state = state
        self.figures[state] += 1

    def is_full(self):
        return sum(batch.count for batch in self.batches.values()) > MANY

    def fault(self, words):
        self.faults.append("%s: %s" % (self.name, words))

    def compare(self, listed, images, title="a sketch"):
        """Compares what is there with the model: the numbers of the listed batches, and an image for each key."""
        listed = set(listed)
        for number in listed - set(self.batches):
            self.fault("batch %d is listed, and nobody added it" % number)
        for number, batch in self.batches.items():
            self.figures["compared"] += 1
            if batch.state == CONFIRMED and number not in listed:
                self.fault("batch %d was confirmed, and is lost" % number)
            if batch.state == FAILED and number in listed:
                self.fault("batch %d failed, and is there" % number)
        for number in listed & set(self.batches) - self.counted:
            raise_registers(self.registers[self.batches[number].key], self.batches[number].coupons)
            self.counted.add(number)
        for key, wanted in self.registers.items():
            self.same("%s of key %d" % (title, key), images.get(key), wanted)

    def same(self, title, image, wanted):
        """Compares the registers of an image with those of the model. None is an empty sketch."""
        self.figures["compared"] += 1
        try:
            found = registers_of(image) if image is not None else bytes(1 << LG_K)
        except Refused as why:
            self.fault("%s is no image: %s" % (title, why))
            return
        low = sum(a < b for a, b in zip(found, wanted))
        high = sum(a > b for a, b in zip(found, wanted))
        if low or high:
            self.fault("%s has %d registers that are too low, and %d that are too high" % (title, low, high))

    def spoils(self, when=FEW):
        """Whether to take a confirmed batch away now: once, if that is asked for."""
        if self.planted != "lost" or self.is_spoiled or self.figures["confirmed"] < when:
            return False
        self.is_spoiled = True
        return True

    def has_to_spoil(self):
        """Whether a batch is still to be taken away: on a slow machine the first ones are confirmed late."""
        return self.planted == "lost" and not self.is_spoiled and self.figures["rounds"] < 50

    # ---- memory

    def watch(self, title, pid, kilobytes=None):
        """Notes the memory of a process at the end of a round."""
        kilobytes = resident(pid) if kilobytes is None else kilobytes
        if kilobytes is not None:
            self.lives["%s %d" % (title, pid)].append(kilobytes)

    def memory(self):
        """For each kind of process that lived for some rounds: rounds of the longest life, kilobytes near its start and at its end, and the
        greatest growth of all lives. The first rounds of a life don't count: caches fill."""
        told = {}
        for title, life in self.lives.items():
            kind = title.rpartition(" ")[0]
            if len(life) < FEW:
                continue
            quarter = len(life) // 4
            start, end = max(life[quarter : 2 * quarter]), min(life[-quarter:])
            rounds, first, last, growth = told.get(kind, (0, 0, 0, 0))
            told[kind] = (*((len(life), start, end) if len(life) > rounds else (rounds, first, last)), max(growth, end - start))
        return told

    def test_memory(self):
        for kind, (rounds, _, _, growth) in self.memory().items():
            if growth > self.most_growth + rounds * self.growth_per_round:
                self.fault("the memory of %s grew by %d KB" % (kind, growth))

    # ---- rounds

    def begin(self):
        """Makes what the lane uses."""

    def round(self, seconds):
        """Uses it for about so many seconds, and compares."""

    def end(self):
        """Ends all processes."""

    def at_once(self, seconds, *loops):
        """Runs functions in threads, again and again, for so long. A fault of one is a fault of the lane."""
        self.stopped.clear()

        def again(loop):
            try:
                while not self.stopped.is_set():
                    loop()
            except Exception as why:
                self.fault("%s: %s: %s" % (loop.__name__, type(why).__name__, why))

        threads = [threading.Thread(target=again, args=(loop,)) for loop in loops]
        for thread in threads:
            thread.start()
        return threads, time.monotonic() + seconds

    def wait(self, seconds):
        """Sleeps, but not beyond the end of the round."""
        self.stopped.wait(seconds)

    def stop(self, threads):
        self.stopped.set()
        for thread in threads:
            thread.join(120)
            if thread.is_alive():
                self.fault("a thread doesn't end")

    def report(self, is_whole=False):
        told = {"lane": self.name, "is whole": is_whole, "figures": self.figures, "faults": self.faults[:20], "fault count": len(self.faults), "memory": self.memory()}
        print(json.dumps(told), flush=True)

    def run(self):
        begun = time.monotonic()
        length = 2.0 if self.seconds < 300 else 5.0
        try:
            self.begin()
            while time.monotonic() < begun + self.seconds or self.figures["rounds"] < 3 or self.has_to_spoil():
                self.round(length * self.numbers.uniform(0.7, 1.3))
                self.figures["rounds"] += 1
                self.report()
                if len(self.faults) > 20:
                    break
            self.test_memory()
        except Exception as why:
            self.fault("it broke off: %s: %s" % (type(why).__name__, why))
        finally:
            self.stopped.set()
            self.end()
        self.report(True)
