# SPDX-License-Identifier: Apache-2.0
"""Dask: a cluster of three worker processes merges files, while workers are killed, computations are cancelled and the workers'
disk is full from time to time."""
import os
import pathlib
import shutil
import signal
import sys
import time
import warnings

from lanes import CONFIRMED, KEYS, LG_K, Disk, Lane, raise_registers

TOP = pathlib.Path(__file__).resolve().parent.parent.parent
sys.path.insert(0, str(TOP / "bindings" / "python"))


class Dask(Lane):
    # (the scheduler keeps a log, and grows by itself: without this library by 10 MB in 37 rounds)
    name, most_growth, growth_per_round = "Dask", 16384, 256

    def begin(self):
        import logging

        import dask
        warnings.simplefilter("ignore")
        logging.disable(logging.CRITICAL)
        os.environ["PYTHONPATH"] = str(TOP / "bindings" / "python")
        dask.config.set({"distributed.scheduler.allowed-failures": 20, "distributed.scheduler.transition-log-length": 500,
                         "distributed.scheduler.events-log-length": 500, "distributed.admin.log-length": 100})
        self.disk = Disk(self.folder / "disk", 24)
        self.start_cluster()
        self.files = self.folder / "files"
        self.start_again()

    def start_cluster(self):
        from distributed import Client, LocalCluster

        self.cluster = LocalCluster(n_workers=3, threads_per_worker=1, processes=True, dashboard_address=None, local_directory=str(self.disk.place))
        self.client = Client(self.cluster)

    def result_of(self, future):
        """What a future computes. None if all workers were lost: a nanny gives up if the disk is full, and then the cluster is started again."""
        end = time.monotonic() + 60
        while not future.done():
            if time.monotonic() > end:
                self.figures["stalled clusters"] += 1
                self.end()
                self.start_cluster()
                return None
            time.sleep(0.02)
        return future.result().to_bytes()

    def start_again(self):
        """Removes all sketches."""
        shutil.rmtree(self.files, ignore_errors=True)
        self.files.mkdir()
        self.empty()
        self.whole = bytearray(1 << LG_K)

    def write_files(self):
        """Writes a batch as some files."""
        from hll_sketches import Sketch

        for _ in range(4):
            batch = self.new_batch()
            sketch = Sketch(LG_K, self.numbers.choice((4, 6, 8)))
            sketch.update_many(range(batch.first, batch.first + batch.count))
            (self.files / ("%d %d.hll" % (batch.key, batch.number))).write_bytes(sketch.to_bytes())
            raise_registers(self.whole, batch.coupons)
            self.settle(batch, CONFIRMED)

    def round(self, seconds):
        from hll_sketches.dask import union_of_files

        end = time.monotonic() + seconds
        while time.monotonic() < end:
            self.write_files()
            paths = [str(path) for path in self.files.iterdir()] * 20
            self.numbers.shuffle(paths)
            future = self.client.compute(union_of_files(paths, files_per_task=len(paths) // 60 + 1, split_every=8))
            time.sleep(self.numbers.uniform(0, 0.3))
            what = self.numbers.random()
            if what < 0.3:
                future.cancel()
                self.figures["cancels"] += 1
                continue
            if what < 0.6:
                self.kill_worker()
            elif what < 0.8 and self.disk.is_small:
                self.disk.fill(0)
                time.sleep(self.numbers.uniform(0.1, 0.5))
                self.disk.free()
                self.figures["full disks"] += 1
            image = self.result_of(future)
            if image is not None:
                self.figures["unions"] += 1
                self.same("a union of %d files" % len(paths), image, self.whole)
        if self.planted == "memory":
            self.kept = getattr(self, "kept", b"") + b"x" * (8 << 20)
        if self.spoils():
            for path in list(self.files.iterdir())[::2]:
                path.unlink()
        self.verify()
        self.watch("the scheduler", os.getpid())
        for pid in self.pids():
            self.watch("a worker", pid)
        if self.is_full() or len(self.batches) > 300:
            self.start_again()

    def pids(self):
        return [nanny.process.process.pid for nanny in self.cluster.workers.values() if nanny.process and nanny.process.process]

    def kill_worker(self):
        pids = [pid for pid in self.pids() if pid]
        if pids:
            try:
                os.kill(self.numbers.choice(pids), signal.SIGKILL)
                self.figures["kills"] += 1
            except ProcessLookupError:
                pass

    def verify(self):
        """By key, and with all batches."""
        from hll_sketches.dask import union_of_files

        files = list(self.files.iterdir())
        by_key = {key: [str(file) for file in files if file.name.startswith("%d " % key)] for key in range(KEYS)}
        images = {key: union_of_files(paths, files_per_task=3) for key, paths in by_key.items() if paths}
        found = [self.result_of(self.client.compute(image)) for image in images.values()]
        if None not in found:
            self.compare([int(file.stem.split()[1]) for file in files], dict(zip(images, found)))

    def end(self):
        self.client.close()
        self.cluster.close(timeout=20)
