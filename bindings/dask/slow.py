# SPDX-License-Identifier: Apache-2.0
"""Paths of files that are slow to open, and count how often each process opens one."""
import os
import time


class SlowPath:
    """A path whose use takes a time, and puts a byte into a file of the process."""

    def __init__(self, path, log, seconds):
        self.path, self.log, self.seconds = path, log, seconds

    def __fspath__(self):
        with open(os.path.join(self.log, str(os.getpid())), "ab") as count:
            count.write(b".")
        time.sleep(self.seconds)
        return self.path


def opened(log):
    """How many files were opened by each process."""
    return {int(name): os.path.getsize(os.path.join(log, name)) for name in os.listdir(log)}
