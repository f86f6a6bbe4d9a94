# SPDX-License-Identifier: Apache-2.0
"""Processes that work on tasks, each on one task at a time.

A pool of ``concurrent.futures`` waits for ever if it can't start one of its processes or threads. This one
goes on with the processes that it could start, and has no threads in the process that uses it.
"""
from __future__ import annotations

import os
import signal
import sys
import threading
from contextlib import suppress
from multiprocessing import connection, get_context, parent_process
from typing import TYPE_CHECKING, Any, Callable, Dict, Generic, Iterable, Iterator, List, Optional
from typing import Tuple, TypeVar

from ._signals import held_back

if TYPE_CHECKING:
    from multiprocessing.connection import Connection
    from multiprocessing.context import BaseContext
    from multiprocessing.process import BaseProcess

Task = TypeVar("Task")
Result = TypeVar("Result")

AHEAD = 2
"""Tasks are started up to this many for each process before a result that is not there yet."""


class WorkerLost(Exception):
    """A process ended before its work was done."""


# ---- in a process


def _end_with_parent() -> None:
    """Ends this process when its parent has ended for any reason, even during a call of the library,
    which lets other threads run. Without a thread it ends after its task, when its pipe is closed."""
    parent = parent_process()
    if parent is None:
        return
    place = parent.sentinel

    def wait() -> None:
        connection.wait([place])
        os._exit(1)

    with suppress(RuntimeError):    # no more threads may be started
        threading.Thread(target=wait, daemon=True).start()


def _outcome(call: Callable[[Any], Any], task: Any) -> Tuple[bool, Any]:
    """Returns whether a call succeeded, and its result or its error."""
    try:
        return True, call(task)
    except Exception as error:
        return False, error


def _serve(call: Callable[[Any], Any], pipe: Connection, inherited: List[Connection]) -> None:
    """Calls the function for each task until the pipe is closed. The parent's ends of pipes are inherited by a fork."""
    for end in inherited:
        end.close()
    _end_with_parent()
    with suppress(EOFError, OSError):
        while True:
            pipe.send(_outcome(call, pipe.recv()))


# ---- in the process that uses them


class _Worker:
    """A process, this process's end of its pipe, and the number of its task, if it has one."""

    def __init__(
        self, context: BaseContext, call: Callable[[Any], Any], others: List[Connection]
    ) -> None:
        self.task: Optional[int] = None
        self.pipe, end = context.Pipe()
        try:
            arguments = call, end, [*others, self.pipe]
            self.process: BaseProcess = context.Process(     # type: ignore[attr-defined]
                target=_serve, args=arguments, daemon=True
            )
            self.process.start()
        except BaseException:
            self.pipe.close()
            raise
        finally:
            end.close()

    def give(self, number: int, task: Any) -> None:
        """Gives a task to a process that has none."""
        try:
            self.pipe.send(task)
        except OSError:
            raise WorkerLost from None
        self.task = number

    def take(self) -> Tuple[int, Tuple[bool, Any]]:
        """Returns the number of the task that is done, and its outcome."""
        number, self.task = self.task, None
        assert number is not None
        try:
            return number, self.pipe.recv()
        except (EOFError, OSError):
            raise WorkerLost from None

    def end(self) -> None:
        """Ends the process. It only reads, so nothing is lost if it is killed."""
        self.pipe.close()
        self.process.kill()
        self.process.join()


class Workers(Generic[Task, Result]):
    """Processes that call a function for each task.

    Parameters
    ----------
    call : callable
        Called with a task, in one of the processes.
    jobs : int
        How many processes to start.

    Attributes
    ----------
    failure : OSError, optional
        Why not all processes were started. Then half of those that were are kept, so that this process
        can still open files. None may be left.
    """

    def __init__(self, call: Callable[[Task], Result], jobs: int) -> None:
        self.failure: Optional[OSError] = None
        self._call = call
        self._workers: List[_Worker] = []
        with held_back(signal.SIGINT):      # interrupts end the parent, and so these processes
            self._start(jobs)
        if self.failure is not None:
            self._keep(len(self._workers) // 2)

    def _start(self, jobs: int) -> None:
        # with fork nothing has a name in the system, which a killed process would not remove
        context = get_context("fork" if sys.platform == "linux" else None)
        try:
            while len(self._workers) < jobs:
                others = [worker.pipe for worker in self._workers]
                self._workers.append(_Worker(context, self._call, others))
        except OSError as error:
            self.failure = error

    def _keep(self, count: int) -> None:
        for worker in self._workers[count:]:
            worker.end()
        del self._workers[count:]

    def __len__(self) -> int:
        return len(self._workers)

    def __enter__(self) -> "Workers[Task, Result]":
        return self

    def __exit__(self, *_: object) -> None:
        self._keep(0)

    def results(
        self, tasks: Iterable[Task], is_here: Callable[[Task], bool]
    ) -> Iterator[Result]:
        """Yields the result of each task, in the order of the tasks.

        Parameters
        ----------
        tasks : iterable
            Read only a few tasks ahead.
        is_here : callable
            Whether a task is done in this process, and not in one of the others.

        Raises
        ------
        WorkerLost
            If a process has ended.
        """
        source, given = iter(tasks), 0
        outcomes: Dict[int, Tuple[bool, Any]] = {}
        wanted, is_more = 0, True
        while is_more or wanted < given:
            while is_more and given < wanted + AHEAD * len(self) and self._idle() is not None:
                is_more = self._give(next(source, None), given, outcomes, is_here)
                given += is_more
            if wanted in outcomes:
                succeeded, result = outcomes.pop(wanted)
                if not succeeded:
                    raise result
                wanted += 1
                yield result
            elif wanted < given:
                outcomes.update(self._next_outcomes())

    def _idle(self) -> Optional[_Worker]:
        """Returns a process without a task, if there is one."""
        return next((worker for worker in self._workers if worker.task is None), None)

    def _give(
        self,
        task: Optional[Task],
        number: int,
        outcomes: Dict[int, Tuple[bool, Any]],
        is_here: Callable[[Task], bool],
    ) -> bool:
        """Starts a task. Returns False if there is none."""
        if task is None:
            return False
        if is_here(task):
            outcomes[number] = _outcome(self._call, task)
        else:
            worker = self._idle()
            assert worker is not None
            worker.give(number, task)
        return True

    def _next_outcomes(self) -> Dict[int, Tuple[bool, Any]]:
        """Waits for processes that are done, and returns the outcomes by the numbers of their tasks."""
        busy = {worker.pipe: worker for worker in self._workers if worker.task is not None}
        return dict(busy[pipe].take() for pipe in connection.wait(list(busy)))  # type: ignore[index]
