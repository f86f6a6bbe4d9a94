# SPDX-License-Identifier: Apache-2.0
"""Signals that end the command.

Python runs its handlers only between instructions, and a call of the library over many images can
take minutes. So the command has no handlers, and the kernel ends it at once.
"""
from __future__ import annotations

import signal
import sys
from contextlib import contextmanager
from typing import Iterator

ENDING = (signal.SIGINT, signal.SIGTERM) + ((signal.SIGHUP,) if hasattr(signal, "SIGHUP") else ())


def end_at_once() -> None:
    """Removes Python's handler of interrupts. If interrupts are ignored, they stay ignored."""
    if signal.getsignal(signal.SIGINT) is signal.default_int_handler:
        signal.signal(signal.SIGINT, signal.SIG_DFL)


@contextmanager
def held_back(*signals: signal.Signals) -> Iterator[None]:
    """Delays signals until the block ends, where the system can do that."""
    if sys.platform == "win32":
        yield
        return
    before = signal.pthread_sigmask(signal.SIG_BLOCK, signals)
    try:
        yield
    finally:
        signal.pthread_sigmask(signal.SIG_SETMASK, before)
