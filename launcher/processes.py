"""The checkers that run beside this process."""
from __future__ import annotations

import contextlib
import fcntl
import os
import signal
import threading
from collections.abc import Iterator

from launcher.signals import held
from launcher.streams import INPUT, OUTPUT, PIECE, Failure, reason, write_all

SET_PIPE_SIZE = 1031  # Linux's number, which older Pythons don't name


class Process:
    """A command whose output is read here, and whose input is given here or is this process's own. It is started without the
    module `subprocess`, which takes longer to load than a small trace to check."""

    def __init__(self, words: list[bytes], given: bool) -> None:
        self.status: int | None = None  # once it has ended
        self.output, printed = os.pipe()
        taken, self.input = os.pipe() if given else (INPUT, -1)
        streams = [(os.POSIX_SPAWN_DUP2, printed, OUTPUT)] + [(os.POSIX_SPAWN_DUP2, taken, INPUT)] * given
        try:
            # Python ignores these two, and what it starts would too; a name may be /dev/fd/N, so nothing else is closed
            self.number = os.posix_spawn(words[0], words, os.environ, file_actions=streams,
                                         setsigdef=[signal.SIGPIPE, signal.SIGXFSZ])
        finally:
            os.close(printed)
            if given:
                os.close(taken)

    def give(self, data: bytes) -> None:
        """Gives it all of its input, which it reads before it prints."""
        with contextlib.suppress(BrokenPipeError):  # its output tells
            write_all(self.input, data)
        os.close(self.input)

    def pieces(self) -> Iterator[bytes]:
        """What it prints, as it comes."""
        with contextlib.suppress(OSError):
            fcntl.fcntl(self.output, SET_PIPE_SIZE, PIECE)  # it waits less often for its reader
        while True:
            piece = os.read(self.output, PIECE)
            if not piece:
                return
            yield piece

    def kill(self) -> None:
        os.kill(self.number, signal.SIGKILL)

    def wait(self) -> None:
        self.status = os.waitstatus_to_exitcode(os.waitpid(self.number, 0)[1])
        os.close(self.output)


class Processes:
    """The processes that run now. At the end of a block with it they are gone, and no other is started."""

    def __init__(self) -> None:
        self.running: set[Process] = set()
        self.closed = False
        self.guard = threading.Lock()

    def __enter__(self) -> Processes:
        return self

    def __exit__(self, *_: object) -> None:
        with self.guard:
            self.closed = True
            for process in self.running:
                process.kill()

    def start(self, words: list[bytes], given: bool) -> Process:
        with held(), self.guard:
            if self.closed:
                raise Failure("interrupted")
            try:
                process = Process(words, given)
            except OSError as error:
                raise Failure(f"the checker can't be started: {reason(error)}") from None
            self.running.add(process)
            return process

    @contextlib.contextmanager
    def started(self, words: list[bytes], given: bool = False) -> Iterator[Process]:
        """A process that is gone at the end of the block, whatever happened."""
        process = self.start(words, given)
        try:
            yield process
        except BaseException:
            process.kill()
            raise
        finally:
            with self.guard:  # so that nobody kills a number that is free again
                self.running.discard(process)
            process.wait()
