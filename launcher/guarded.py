"""A command whose processes all end with this one, however this one ends."""
from __future__ import annotations

import os
import signal
import subprocess
import threading
from collections.abc import Iterator

from launcher.signals import ENDING, held


class Guarded:
    """The command's output, line by line, and then its exit status."""

    def __init__(self, guard: int, output: int, told: int, alive: int) -> None:
        self.guard, self.output, self.told, self.alive = guard, output, told, alive
        self.status = -1

    def lines(self) -> Iterator[bytes]:
        try:
            with open(self.output, "rb") as output:
                yield from output
            status = os.read(self.told, 16)
            self.status = int(status) if status else -1
        finally:
            for descriptor in (self.alive, self.told):
                os.close(descriptor)
            os.waitpid(self.guard, 0)


def run_guarded(words: list[str], folder: str, environment: dict[str, str]) -> Guarded:
    """Starts a command without input, under a process that waits for the end of both: of the command, to tell its status, and
    of this process, which is seen when nobody can write to the pipe `alive` any more. Then it ends its whole process group."""
    output, output_end = os.pipe()
    told, tell = os.pipe()
    watched, alive = os.pipe()
    with held():
        guard = os.fork()
        if not guard:
            os.setsid()
            for number in ENDING:
                signal.signal(number, signal.SIG_DFL)
            for descriptor in (output, told, alive):
                os.close(descriptor)
            keep_guard(words, folder, environment, output_end, tell, watched)
        for descriptor in (output_end, tell, watched):
            os.close(descriptor)
        return Guarded(guard, output, told, alive)


def keep_guard(words: list[str], folder: str, environment: dict[str, str], output: int, tell: int, watched: int) -> None:
    """All that the guard does; it never comes back."""
    try:
        command = subprocess.Popen(words, cwd=folder, env=environment, stdin=subprocess.DEVNULL, stdout=output,
                                   stderr=subprocess.STDOUT)
        threading.Thread(target=end_after, args=(watched,), daemon=True).start()
        os.write(tell, b"%d" % command.wait())
    except OSError as error:
        os.write(output, f"{words[0]} can't be started: {error.strerror}\n".encode())
    finally:
        os.killpg(0, signal.SIGKILL)


def end_after(watched: int) -> None:
    os.read(watched, 1)
    os.killpg(0, signal.SIGKILL)
