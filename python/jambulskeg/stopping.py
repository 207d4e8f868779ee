"""SIGINT and SIGTERM as an event, so that a command ends at once and keeps the best so far."""

from __future__ import annotations

import signal
import threading
from contextlib import contextmanager
from types import FrameType
from typing import Iterator, Optional

from .errors import Stopped

__all__ = ["Stop", "ending", "stopping"]

SIGNALS = (signal.SIGINT, signal.SIGTERM)


class Stop(threading.Event):
    """An event that a signal sets; `number` is that of the signal, 0 without one."""

    number = 0

    @property
    def status(self) -> int:
        """The exit status of a command that a signal stopped, as shells have it; 0 if none did."""
        return 128 + self.number if self.number else 0


@contextmanager
def stopping() -> Iterator[Stop]:
    """An event that the first SIGINT or SIGTERM sets; a second one does what it does without this.

    In a thread other than the main one, where Python takes no signals, nothing sets it. A `Stopped` that is raised
    within has the number of the signal.
    """
    stop = Stop()
    if threading.current_thread() is not threading.main_thread():
        yield stop
        return

    def note(number: int, _: Optional[FrameType]) -> None:
        stop.number = number
        stop.set()
        put_back()

    def put_back() -> None:
        for entry, handler in earlier.items():
            signal.signal(entry, handler)

    earlier = {entry: signal.getsignal(entry) for entry in SIGNALS}
    for entry in SIGNALS:
        signal.signal(entry, note)
    try:
        yield stop
    except Stopped as problem:
        problem.signal = stop.number
        raise
    finally:
        put_back()


@contextmanager
def ending() -> Iterator[None]:
    """Within it SIGTERM raises `SystemExit`, so that searches are ended and half-written files taken away."""
    if threading.current_thread() is not threading.main_thread():
        yield
        return

    def end(number: int, _: Optional[FrameType]) -> None:
        raise SystemExit(128 + number)

    before = signal.signal(signal.SIGTERM, end)
    try:
        yield
    finally:
        signal.signal(signal.SIGTERM, before)
