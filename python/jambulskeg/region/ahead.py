"""What Python itself computes of many parts, found ahead by processes of this machine.

Models, texts and schedules take tens of milliseconds of a part. One process of Python would have other processors wait
for it.
"""

from __future__ import annotations

import os
import pickle
import signal
from contextlib import contextmanager
from threading import Lock
from typing import Any, Callable, Dict, Generic, Iterator, List, TypeVar

__all__ = ["ahead"]

T = TypeVar("T")
FEW = 8
"""Fewer calls than this are made by whoever asks; processes are not worth their beginning then."""
SIGNALS = (signal.SIGINT, signal.SIGTERM)
MOST_FILES = 4096
"""A process closes the files of its parent up to this number, so that it holds no lock of a parent that is gone."""


@contextmanager
def ahead(make: Callable[[int], T], count: int, jobs: int) -> Iterator[Callable[[int], T]]:
    """The function on the numbers below `count`, whose results at most `jobs` processes find ahead, in this order.

    They have a copy of all that is there at the beginning, so what the function writes must be files. A call that fails
    there is made here again, which raises what is to be raised. Any thread may call.
    """
    jobs = min(jobs, count)
    if jobs < 2 or count < FEW or not hasattr(os, "fork"):
        yield make
        return
    makers: "List[Maker[T]]" = []
    try:
        with waiting_signals():
            makers += [Maker(make, range(first, count, jobs)) for first in range(jobs)]
        yield lambda number: makers[number % jobs].result(number)
    finally:
        for maker in makers:
            maker.end()


@contextmanager
def waiting_signals() -> Iterator[None]:
    """Within it signals wait: Python loses what they raise while it forks."""
    before = signal.pthread_sigmask(signal.SIG_BLOCK, SIGNALS)
    try:
        yield
    finally:
        signal.pthread_sigmask(signal.SIG_SETMASK, before)


class Maker(Generic[T]):
    """A process that makes calls in their order, and is little ahead of those who ask. It ends with its parent."""

    def __init__(self, make: Callable[[int], T], numbers: range) -> None:
        self._make, self._lock, self._is_over = make, Lock(), False
        self._results: Dict[int, List[T]] = {}
        reads, writes = os.pipe()
        self._process = os.fork()
        if not self._process:
            work(make, numbers, writes)
        os.close(writes)
        self._pipe = os.fdopen(reads, "rb")

    def result(self, number: int) -> T:
        """The result of a call, made here if it fails there."""
        with self._lock:
            while number not in self._results and not self._is_over:
                self._read()
            found = self._results.get(number)
        return found[0] if found else self._make(number)

    def _read(self) -> None:
        try:
            number, found = pickle.load(self._pipe)
            self._results[number] = found
        except (EOFError, OSError, pickle.UnpicklingError):
            self._is_over = True

    def end(self) -> None:
        """Ends the process."""
        os.kill(self._process, signal.SIGKILL)
        os.waitpid(self._process, 0)
        with self._lock:
            self._is_over = True
            self._pipe.close()


def work(make: Callable[[int], Any], numbers: range, pipe: int) -> None:
    """Makes calls in a process of its own, which ends then; the keyboard's signal is left to its parent."""
    try:
        signal.signal(signal.SIGINT, signal.SIG_IGN)
        signal.signal(signal.SIGTERM, signal.SIG_DFL)
        signal.pthread_sigmask(signal.SIG_UNBLOCK, SIGNALS)
        os.closerange(3, pipe)
        os.closerange(pipe + 1, MOST_FILES)
        for number in numbers:
            rest = memoryview(pickle.dumps((number, made(make, number))))
            while rest:
                rest = rest[os.write(pipe, rest):]
    finally:
        os._exit(0)


def made(make: Callable[[int], T], number: int) -> List[T]:
    """The result of a call; none if it failed."""
    try:
        return [make(number)]
    except Exception:  # It is raised where it is asked for.
        return []
