# SPDX-License-Identifier: Apache-2.0
"""How long a part may take: by CPU time, since others may use the machine, too."""
import os
import signal
import time

from report import check, equal
from tap import HUNG

MINUTES = 10        # of CPU time at most, for a part
LOOKS = 2           # seconds between two looks


def time_used(server):
    """The seconds of CPU time of the server, of this process, and of what both have started."""
    return server.time_used() + sum(os.times()[:4])


def run(part, server, minutes=MINUTES, hung=HUNG, looks=LOOKS):
    """Runs a part, and ends it where it takes too long."""
    begun, used = time.monotonic(), time_used(server)

    def look(*_):
        if time_used(server) - used > 60 * minutes:
            raise TimeoutError("it takes more than %g minutes of CPU time" % minutes)
        if time.monotonic() - begun > hung:
            raise TimeoutError("it hangs, or the machine was asleep")

    before = signal.signal(signal.SIGALRM, look), signal.setitimer(signal.ITIMER_REAL, looks, looks)
    try:
        part(server)
    finally:
        signal.setitimer(signal.ITIMER_REAL, *before[1])
        signal.signal(signal.SIGALRM, before[0])


def ended(server, sql, **limits):
    """Why a part that asks this is ended, or None."""
    try:
        run(lambda server: server.ask(sql), server, looks=0.5, **limits)
    except TimeoutError as why:
        return str(why)
    return None


def limits(server):
    """A part is ended by the CPU time of the server; one that sleeps, by the clock alone."""
    equal("a server that waits", ended(server, "SELECT pg_sleep(3)", minutes=0.04), None)
    for name, sql, limit, why in (
        ("a busy server", "SELECT sum(sqrt(i)) FROM generate_series(1, 1000000000) i", {"minutes": 0.005}, "it takes more than 0.005 minutes of CPU time"),
        ("a server that waits for ever", "SELECT pg_sleep(7200)", {"hung": 0.2}, "it hangs, or the machine was asleep"),
    ):
        equal(name, ended(server, sql, **limit), why)
        server.ask("SELECT pg_terminate_backend(pid, 20000) FROM pg_stat_activity WHERE backend_type = 'client backend' AND pid <> pg_backend_pid()")
    before = server.time_used()
    server.ask("SELECT sum(i) FROM generate_series(1, 3000000) i")
    check("a backend that has ended counts", server.time_used() > before, server.time_used())
