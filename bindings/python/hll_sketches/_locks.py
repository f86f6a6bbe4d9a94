# SPDX-License-Identifier: Apache-2.0
"""Locks that are free in a forked child, even if another thread held them in the parent.

A child has only the thread that forked, so a lock that another thread held would stay locked
forever. The locks may be free in the child because what they protect is consistent at each moment:
a single assignment replaces an old image by a new one, and no thread forks during a call on a counter.
"""
from __future__ import annotations

import os
import threading

_renewing = threading.Lock()
_forks = 0
"""How many forks led from the first process to this one."""


class Lock:
    """A lock that the thread that holds it may acquire again."""

    __slots__ = ("_lock", "_forks")

    def __init__(self) -> None:
        self._lock, self._forks = threading.RLock(), _forks

    def _renew(self) -> None:
        with _renewing:
            if self._forks != _forks:
                self._lock, self._forks = threading.RLock(), _forks

    def __enter__(self) -> None:
        if self._forks != _forks:
            self._renew()
        self._lock.acquire()

    def __exit__(self, *_: object) -> None:
        try:
            self._lock.release()
        except RuntimeError:
            if not _forks:
                raise
            # it was taken, the handler of a signal forked meanwhile, and this is the child


loading = threading.RLock()
"""Held while the library is loaded, and by a thread that forks, so no child is forked while the
system's loader is at work."""


def _in_child() -> None:
    global _renewing, _forks
    _renewing, _forks = threading.Lock(), _forks + 1
    loading.release()


if hasattr(os, "register_at_fork"):
    os.register_at_fork(
        before=loading.acquire, after_in_parent=loading.release, after_in_child=_in_child
    )
