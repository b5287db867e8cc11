"""Signals that end the run: not before it has ended what it started."""
from __future__ import annotations

import contextlib
import os
import signal
import sys
import threading
from collections.abc import Iterator

ENDING = (signal.SIGHUP, signal.SIGINT, signal.SIGTERM)


class Interrupted(Exception):
    """A signal came that ends the run."""

    def __init__(self, number: int) -> None:
        super().__init__()
        self.number = number


class State:
    holding = False
    held: list[int] = []


def interrupt(number: int, _: object = None) -> None:
    if State.holding:
        State.held.append(number)
        return
    disregard()  # once is enough
    raise Interrupted(number)


def disregard() -> None:
    for number in ENDING:
        signal.signal(number, signal.SIG_IGN)


def heed() -> None:
    """Whoever started this may have told it to ignore a signal, as nohup does."""
    for number in ENDING:
        if signal.getsignal(number) != signal.SIG_IGN:
            signal.signal(number, interrupt)


@contextlib.contextmanager
def held() -> Iterator[None]:
    """Keeps a signal until something is done whole: a process that is started and not yet noted would stay behind. Signals
    reach the main thread alone."""
    if threading.current_thread() is not threading.main_thread():
        yield
        return
    State.holding = True
    try:
        yield
    finally:
        State.holding = False
        if State.held:
            interrupt(State.held[0])


def end_by(number: int) -> None:
    """Ends this process as a signal does."""
    signal.signal(number, signal.SIG_DFL)
    os.kill(os.getpid(), number)
    sys.exit(128 + number)  # where the signal is held back
