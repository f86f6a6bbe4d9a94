# SPDX-License-Identifier: Apache-2.0
"""Copies, forks and threads: each has its own state, and no lock is left held; and what sketches
take of memory."""
import copy
import ctypes
import io
import os
import pickle
import signal
import subprocess
import sys
import tempfile
import threading
import time
import tracemalloc
import types
import unittest
from array import array
from unittest import mock

import common
from hll_sketches import ArgumentError, ImageError, PrecisionError, Sketch, SketchUnion
from hll_sketches import _library, _locks, coupons, union_of
from long_searches import stride_coupons, unsorted_set
from tap import HUNG


def sketch(values, lg_k=12):
    made = Sketch(lg_k)
    made.update_many(values)
    return made


class MyUnion(SketchUnion):
    pass


COPIES = [copy.copy, copy.deepcopy, SketchUnion.copy] + [
    lambda one, protocol=protocol: pickle.loads(pickle.dumps(one, protocol))
    for protocol in range(2, pickle.HIGHEST_PROTOCOL + 1)
]


class CopiesTest(unittest.TestCase):
    def test_unions(self):
        """A copy takes in sketches for itself, also before those of the first are merged."""
        parts = [sketch(range(n * 1000, n * 1000 + 1500)) for n in range(4)]
        for kind in (SketchUnion, MyUnion):
            for copied in COPIES:
                first = kind(11, 4)
                first.update(parts[0])
                second = copied(first)
                self.assertEqual((type(second), second.lg_max_k, second.width), (kind, 11, 4))
                self.assertEqual(second.sketch(), union_of(parts[:1], 11, 4))
                first.update(parts[1])
                second.update(parts[2])
                third = copied(second)
                third.update_many([parts[3]])
                self.assertEqual(first.sketch(), union_of(parts[:2], 11, 4))
                self.assertEqual(second.sketch(), union_of([parts[0], parts[2]], 11, 4))
                self.assertEqual(third.sketch(), union_of([parts[0], *parts[2:]], 11, 4))

    def test_sketches(self):
        first = Sketch()
        first.update("ann")
        second = copy.copy(first)
        first.update("bob")
        second.update("cid")
        second.update("dan")
        self.assertEqual((first.num_coupons, second.num_coupons), (2, 3))


class UnionMemoryTest(unittest.TestCase):
    def test_a_union_at_rest(self):
        """It takes little more than its image, whatever room its merges needed."""
        for count in (0, 1, 7, 8, 300, 5000):
            part = sketch(range(count))
            union = SketchUnion()
            for _ in range(3):
                union.update_many([part, part.to_bytes()])
                union.update(part)
                self.assertEqual(union.sketch(), part)
                room = union._state._counter.room
                self.assertLessEqual(room, 2 * len(part.to_bytes()) + 100, count)


class Allocator:
    """The memory of counters: what is allocated, and the number of the request that fails."""

    def __init__(self):
        self.fails_at, self.requests, self.blocks = 0, 0, {}
        kind = ctypes.CFUNCTYPE(ctypes.c_void_p, ctypes.c_void_p, ctypes.c_void_p, ctypes.c_size_t)
        self.function = kind(self.allocate)

    def allocate(self, _, memory, size):
        if size == 0:
            self.blocks.pop(memory, None)
            return None
        self.requests += 1
        if self.requests == self.fails_at:
            return None
        block = (ctypes.c_uint8 * size)()
        if memory is not None:
            ctypes.memmove(block, self.blocks.pop(memory), size)
        place = ctypes.addressof(block)
        self.blocks[place] = block
        return place

    def used(self):
        """In place of that of malloc, meanwhile."""
        return mock.patch.object(_library, "ALLOCATOR", self.function)


def counter_bytes(union):
    """The counter of a union, and its state."""
    counter = union._state._counter
    state = ctypes.string_at(counter.at[0], counter.room) if counter.room else b""
    return bytes(counter), state


class CounterTest(unittest.TestCase):
    """The memory of a union is that of a counter of the library."""

    PARTS = [sketch(range(n * 1000, n * 1000 + count)) for n, count in enumerate((5, 40, 300, 9000, 7, 0))]

    def test_memory_is_given_back(self):
        memory = Allocator()
        with memory.used():
            for copied in COPIES:
                union = SketchUnion(12)
                for part in self.PARTS:
                    union.update(part)
                union.update_values(range(70000, 70020))
                other = copied(union)
                other.update(sketch(range(50)))
                union.reset()
                self.assertEqual(len(memory.blocks), 1)     # of the copy, as nothing was merged since
                self.assertRaises(ImageError, union.update, b"none")
                del union, other
                self.assertEqual(memory.blocks, {})
            union_of(self.PARTS, 11)
            self.assertRaises(PrecisionError, union_of, [*self.PARTS, sketch(range(9), 11)])
        self.assertEqual(memory.blocks, {})
        self.assertGreater(memory.requests, 40)

    def calls_of(self, union):
        """Calls that allocate."""
        calls = [lambda part=part: union.update(part) for part in self.PARTS]
        calls += [lambda: union.update_many(self.PARTS[1:]), lambda: union.update_values(range(40))]
        return calls + [union.estimate, union.copy, lambda: pickle.loads(pickle.dumps(union))]

    def images_of(self, width):
        """The images of a union before these calls, and after each."""
        union = SketchUnion(12, width)
        images = [union.to_bytes()]
        for call in self.calls_of(union):
            call()
            images.append(union.to_bytes())
        return images

    def failed(self, at, width, images):
        """Makes the calls while this allocation fails. Returns how many there were, and how many calls
        failed: none if less memory was asked for, which the union can do without."""
        memory, failures = Allocator(), 0
        memory.fails_at = at
        with memory.used():
            union = SketchUnion(12, width)
            for call, before, after in zip(self.calls_of(union), images, images[1:]):
                count = union._state.count
                try:
                    call()
                except MemoryError:
                    failures += 1
                    self.assertEqual((union.to_bytes(), union._state.count), (before, count))
                    call()
                self.assertEqual(union.to_bytes(), after)
            del union, call
        self.assertEqual(memory.blocks, {})
        return memory.requests, failures

    def test_each_allocation_fails(self):
        """The call raises MemoryError and changes nothing, and does its work when it is made again."""
        for width in (None, 4):
            images = self.images_of(width)
            requests, failures = self.failed(0, width, images)
            self.assertEqual(failures, 0)
            failures = [self.failed(at, width, images)[1] for at in range(1, requests + 1)]
            self.assertLessEqual(set(failures), {0, 1})
            self.assertGreater(sum(failures), 6)

    def test_readers_change_nothing(self):
        for count in (0, 5, 40, 300, 9000):
            for bound in (None, 12):
                union = SketchUnion(bound)
                for start in (5000, 0):
                    union.update(sketch(range(start, start + count)))
                before = counter_bytes(union)
                union.estimate(), union.bounds(), union.is_empty, union.lg_k, copy.copy(union)
                self.assertEqual(counter_bytes(union), before)
                image, estimate = union.to_bytes(), union.estimate()
                before = counter_bytes(union)       # memory that was not needed is given back
                union.sketch(), pickle.dumps(union), repr(union)
                self.assertEqual(counter_bytes(union), before)
                self.assertEqual((union.to_bytes(), union.estimate()), (image, estimate))

    def test_threads_read_at_once(self):
        union = SketchUnion(12)
        for part in self.PARTS[:3]:
            union.update(part)
        wanted, found = (union.to_bytes(), union.estimate()), []

        def read():
            found.extend((union.to_bytes(), union.estimate()) for _ in range(200))

        readers = [threading.Thread(target=read) for _ in range(4)]
        for one in readers:
            one.start()
        for one in readers:
            one.join()
        self.assertEqual(found, [wanted] * 800)

    def test_a_union_that_never_began(self):
        """Its allocator is not there, so nothing is freed."""
        union = SketchUnion.__new__(SketchUnion)
        del union
        with mock.patch.object(_library, "ensure", side_effect=MemoryError):
            self.assertRaises(MemoryError, SketchUnion)
        self.assertRaises(ArgumentError, SketchUnion, 3)


class WaitingTest(unittest.TestCase):
    def test_others_run_while_a_large_image_is_read(self):
        """A union holds the lock of Python for its own changes alone, not while an image is read."""
        union, is_over, took = SketchUnion(), threading.Event(), []
        image = unsorted_set(18, stride_coupons(18))

        def update():
            start = time.perf_counter()
            union.update(image)
            took.append(time.perf_counter() - start)
            is_over.set()

        reader, gap, last = threading.Thread(target=update), 0.0, time.perf_counter()
        reader.start()
        while not is_over.is_set():
            now = time.perf_counter()
            gap, last = max(gap, now - last), now
        reader.join()
        self.assertGreater(took[0], 0.1)
        self.assertLess(gap, took[0] / 2)


class ForksTest(unittest.TestCase):
    def ended_well(self, child):
        """Forks, and calls in the child, which is ended where it hangs."""
        process = os.fork()
        if process == 0:
            signal.alarm(HUNG)
            status = 1
            try:
                child()
                status = 0
            finally:
                os._exit(status)
        return os.waitpid(process, 0)[1] == 0

    def held(self, lock):
        """Another thread holds a lock until the test is over."""
        is_held, is_over = threading.Event(), threading.Event()

        def hold():
            with lock:
                is_held.set()
                is_over.wait()

        thread = threading.Thread(target=hold)
        thread.start()
        is_held.wait()
        self.addCleanup(thread.join)
        self.addCleanup(is_over.set)

    def test_locks_of_other_threads(self):
        made, union, part = sketch(range(5)), SketchUnion(), sketch(range(9))
        union.update(part)
        made.update("kept")
        self.held(made._lock)
        self.held(union._lock)
        self.held(_locks._renewing)

        def use():
            assert made.num_coupons == 6
            made.update_many(range(100, 110))
            assert made.num_coupons == 16
            union.update(made)
            assert union.sketch().num_coupons == 20
            assert copy.copy(union).sketch() == union.sketch()
            assert self.ended_well(lambda: made.merge(part))

        self.assertTrue(self.ended_well(use))

    def test_a_child_is_for_itself(self):
        made = sketch(range(5))
        self.assertTrue(self.ended_well(lambda: made.update_many(range(100))))
        self.assertEqual(made.num_coupons, 5)

    def test_threads_of_a_child(self):
        """A lock is renewed once, however many threads come to it."""
        made = Sketch()

        def use():
            threads = [threading.Thread(target=made.update_many, args=(range(n, n + 500),))
                       for n in range(0, 4000, 500)]
            for thread in threads:
                thread.start()
            for thread in threads:
                thread.join()
            assert made == sketch(range(4000))

        for _ in range(5):
            self.assertTrue(self.ended_well(use))

    def test_while_others_work(self):
        code = """
import os, signal, sys, threading
sys.path.insert(0, sys.argv[1])
from hll_sketches import Sketch, SketchUnion
sketch, union, is_over = Sketch(16), SketchUnion(16), False
sketch.update_many(range(300000))

def work():
    number = 0
    while not is_over:
        sketch.update(number)
        sketch.to_bytes()
        union.update(sketch)
        union.sketch()
        number += 1

threads = [threading.Thread(target=work) for _ in range(3)]
for thread in threads:
    thread.start()
bad = 0
for _ in range(30):
    child = os.fork()
    if child == 0:
        signal.alarm(int(sys.argv[2]))
        sketch.update("child")
        union.update(sketch)
        answer = union.sketch().estimate()
        os._exit(not 280000 < answer < 320000)
    bad += os.waitpid(child, 0)[1] != 0
is_over = True
print(bad)
"""
        words = [sys.executable, "-W", "ignore", "-c", code, str(common.PACKAGE), str(HUNG)]
        done = subprocess.run(words, capture_output=True, text=True, timeout=HUNG)
        self.assertEqual((done.stdout, done.stderr), ("0\n", ""))

    def test_a_lock_is_renewed_once(self):
        lock = _locks.Lock()
        with mock.patch.object(_locks, "_forks", _locks._forks + 1):
            before = lock._lock
            with lock:
                self.assertIsNot(lock._lock, before)
                before = lock._lock
                lock._renew()  # as by a thread that came to it at the same time
                self.assertIs(lock._lock, before)

    def test_a_fork_while_a_lock_is_held(self):
        """As by the handler of a signal that comes within a call: the child goes on."""
        made = sketch(range(5))

        def use():
            with made._lock:
                assert self.ended_well(lambda: made.update_many(range(100)))
                made.update_many(range(100))

        def go_on():
            with made._lock:
                process = os.fork()
                made.update_many(range(100))
            if process == 0:
                os._exit(made.num_coupons < 90)
            assert os.waitpid(process, 0)[1] == 0

        self.assertTrue(self.ended_well(use))
        self.assertTrue(self.ended_well(go_on))

    def test_the_lock_stays_a_lock(self):
        lock, seen = _locks.Lock(), []
        with lock, lock:
            thread = threading.Thread(target=lambda: seen.append(lock.__enter__()))
            thread.start()
            time.sleep(0.05)
            self.assertEqual(seen, [])
        thread.join()
        self.assertEqual(seen, [None])


class MemoryTest(unittest.TestCase):
    def taken(self, call):
        """What is kept of a call, and the bytes that it takes."""
        tracemalloc.start()
        self.addCleanup(tracemalloc.stop)
        before = tracemalloc.get_traced_memory()[0]
        kept = call()
        size = tracemalloc.get_traced_memory()[0] - before
        tracemalloc.stop()
        return kept, size

    def test_sketches_that_are_updated(self):
        """A sketch keeps at most four kilobytes of values, and its counter has room for half as many registers again."""

        def fill(count, values, lg_k=12):
            made = [Sketch(lg_k) for _ in range(count)]
            for number in range(values):
                for one in made:
                    one.update(str(number).zfill(100))
            return made

        for count, values, lg_k in ((20, 4095, 12), (50, 60, 12), (5, 3000, 14)):
            made, size = self.taken(lambda: fill(count, values, lg_k))
            rooms = sum(one._kept.room for one in made)
            self.assertLess(size, count * 5500, (count, values))
            self.assertLessEqual(rooms, count * (1.5 * 2**lg_k + 100), (count, values))

    def test_a_long_value_is_not_kept(self):
        made = Sketch()
        made.update(b"x" * 1_000_000)
        self.assertEqual(made._pending, [])

    def test_small_answers_are_cheap(self):
        """However large the largest image could be, no memory of that size is cleared for each."""
        few = sketch(range(3), 21).to_bytes()
        Sketch.from_bytes(few)
        sizes = []

        def counted(size):
            sizes.append(size)
            return bytearray(size)

        with mock.patch.object(_library, "bytearray", counted, create=True):
            for _ in range(100):
                self.assertEqual(Sketch.from_bytes(few).num_coupons, 3)
        self.assertLess(len(sizes), 2)

    def test_memory_in_use_is_not_given_twice(self):
        """As to the handler of a signal that comes within a call."""
        kept = _library._Kept()
        first = kept.take(100)
        second = kept.take(100)
        self.assertIsNot(first, second)
        kept.give_back(first)
        self.assertIs(kept.take(50), first)
        kept.give_back(first)
        self.assertEqual(len(kept.take(101)), 101)
        kept.give_back(bytearray(_library.MOST_KEPT + 1))
        self.assertIsNone(kept.memory)


class ManyTest(unittest.TestCase):
    def refused(self, values, word):
        for call in (Sketch().update_many, coupons):
            with self.assertRaisesRegex(TypeError, word):
                call(values)

    def test_what_is_no_iterable_of_values(self):
        for values in (b"ab", bytearray(b"ab"), "ab", memoryview(b"ab")):
            name = type(values).__name__
            self.refused(values, f"^expected many values, not one {name}: pass a list of it, or ")
        for values in ({"a": 1}, os.environ, types.MappingProxyType({})):
            self.refused(values, r"keys\(\) or its values\(\)")
        table = type("DataFrame", (), {"columns": ["a"], "__iter__": lambda self: iter("a")})
        self.refused(table(), "expected many values, not a DataFrame: pass one of its columns")
        self.refused(7, r"^expected many values, not one int: .* or call update\(\)")
        self.refused(Sketch(), "not iterable")

    def test_what_is_one(self):
        wanted = sketch([1, 2, 3])
        for values in ([1, 2, 3], (1, 2, 3), {1, 2, 3}, range(1, 4), array("q", [1, 2, 3]),
                       {1: 0, 2: 0, 3: 0}.keys(), {0: 1, 4: 2, 5: 3}.values(), iter([1, 2, 3]),
                       memoryview(array("q", [1, 2, 3])).tolist()):
            self.assertEqual(sketch(values), wanted)

    def test_lines_of_open_files(self):
        """As `hll add` counts them: a CR stays, an empty line is a value, a last LF ends one."""
        from hll_sketches.lines import lines_of

        for text in (b"", b"\n", b"a\nb\r\n\nc", b"a\nb\n", "caf\u00e9\n\u4e2d".encode()):
            wanted = sketch([line for some in lines_of([text]) for line in some]).to_bytes()
            with tempfile.NamedTemporaryFile(suffix=".txt") as file:
                file.write(text)
                file.flush()
                file.seek(0)
                found = [sketch(file)]
                for mode in ({"mode": "rb"}, {"encoding": "utf-8", "newline": "\n"}):
                    with open(file.name, **mode) as again:
                        found.append(sketch(again))
            for made in (*found, sketch(io.BytesIO(text)), sketch(io.StringIO(text.decode()))):
                self.assertEqual(made.to_bytes(), wanted, text)


if __name__ == "__main__":
    unittest.main()
