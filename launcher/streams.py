"""What the launcher reads and writes: every write is checked, and a failure is a sentence."""
from __future__ import annotations

import contextlib
import errno
import os
import stat
import sys

INPUT, OUTPUT, ERRORS = 0, 1, 2  # the descriptors
HELD = 1 << 16   # bytes of output that wait to be written together
PIECE = 1 << 18  # bytes that are read at a time


class Failure(Exception):
    """A sentence for standard error; the run ends with status 2."""


class NobodyReads(Exception):
    """Whoever read the output has closed it."""


def reason(error: OSError) -> str:
    """Why a file can't be opened, read or written, in a few words."""
    words = {FileNotFoundError: "no such file", NotADirectoryError: "no such file",
             IsADirectoryError: "is a folder", PermissionError: "not allowed"}
    return words.get(type(error)) or (error.strerror or str(error)).lower()


def file_of(error: OSError, otherwise: str) -> str:
    """The name of the file that an error is about."""
    return os.fsdecode(error.filename) if error.filename else otherwise


def fill_closed_streams() -> None:
    """Gives the numbers 0 to 2 to nothing else where they are closed. To read or to write there still fails."""
    for number in (INPUT, OUTPUT, ERRORS):
        try:
            os.fstat(number)
        except OSError:
            os.open(os.devnull, os.O_RDONLY if number else os.O_WRONLY)  # takes the lowest free number


def write_all(descriptor: int, data: bytes) -> None:
    view = memoryview(data)
    while view:
        try:
            view = view[os.write(descriptor, view):]
        except BlockingIOError:  # whoever started this made it so
            wait_for(descriptor, to_read=False)


def read_some(descriptor: int, most: int) -> bytes:
    """Some bytes of what can be read, or none at its end."""
    while True:
        try:
            return os.read(descriptor, most)
        except BlockingIOError:
            wait_for(descriptor, to_read=True)


def wait_for(descriptor: int, to_read: bool) -> None:
    import select
    select.select([descriptor] if to_read else [], [] if to_read else [descriptor], [])


class Progress:
    """A count on the terminal's last line, gone again before anything else is written there."""

    def __init__(self) -> None:
        self.shown = 0  # how many columns it takes
        self.terminal = os.isatty(ERRORS)

    def show(self, text: str) -> None:
        if not self.terminal:
            return
        try:
            columns = os.get_terminal_size(ERRORS).columns or 80
        except OSError:
            columns = 80
        line = f"glubotar: {text}"[:columns - 1]
        self.erase()
        self.shown = len(line)
        self.put("\r" + line)

    def erase(self) -> None:
        if self.shown:
            self.put("\r" + " " * self.shown + "\r")
        self.shown = 0

    @staticmethod
    def put(text: str) -> None:
        try:
            write_all(ERRORS, text.encode())
        except OSError:
            pass  # it is no part of the answer


progress = Progress()


def say(sentence: str) -> None:
    """A sentence on standard error. Where even that can't be written, the exit status still tells."""
    progress.erase()
    try:
        write_all(ERRORS, os.fsencode(f"glubotar: {sentence}\n"))
    except OSError:
        pass


class Output:
    """Standard output. What is written may wait until `flush`; a write that fails ends the run."""

    def __init__(self) -> None:
        self.terminal = os.isatty(OUTPUT)
        self.waiting: list[bytes] = []
        self.size = 0

    def write(self, data: bytes) -> None:
        self.waiting.append(data)
        self.size += len(data)
        if self.size >= HELD:
            self.flush()

    def flush(self) -> None:
        if not self.waiting:
            return
        data, self.waiting, self.size = b"".join(self.waiting), [], 0
        if self.terminal:
            progress.erase()
        try:
            write_all(OUTPUT, data)
        except BrokenPipeError:
            raise NobodyReads from None
        except OSError as error:
            raise Failure(f"the output can't be written: {reason(error)}") from None

    def close(self) -> None:
        """Writes what waits. Some file systems tell only now that a write failed."""
        self.flush()
        try:
            os.close(OUTPUT)
        except OSError as error:
            raise Failure(f"the output can't be written: {reason(error)}") from None


def read_file(name: bytes, most: int = sys.maxsize) -> bytes:
    """The bytes of a file, or its first ones; - is standard input."""
    descriptor = INPUT if name == b"-" else os.open(name, os.O_RDONLY)
    try:
        pieces = []
        while most > 0:
            piece = read_some(descriptor, min(most, PIECE))
            if not piece:
                break
            pieces.append(piece)
            most -= len(piece)
        return b"".join(pieces)
    finally:
        if name != b"-":
            os.close(descriptor)


def write_whole(target: bytes, data: bytes, mode: int | None = None) -> None:
    """Writes a file whole or not at all: beside its place, and then moved there. Raises OSError. A file that is there keeps its
    mode where none is given."""
    if target.endswith(b"/"):
        raise IsADirectoryError(errno.EISDIR, os.strerror(errno.EISDIR), target)
    if is_special(target):
        with open(target, "wb", buffering=0) as device:
            write_all(device.fileno(), data)
        return
    import tempfile
    target = os.path.realpath(target)  # a link stays one
    descriptor, beside = tempfile.mkstemp(dir=os.path.dirname(target), prefix=b".glubotar.")
    try:
        try:
            write_all(descriptor, data)
            os.fchmod(descriptor, mode_of(target) if mode is None else mode)
            os.fsync(descriptor)
        finally:
            os.close(descriptor)
        os.rename(beside, target)
    except BaseException:
        with contextlib.suppress(FileNotFoundError):
            os.unlink(beside)
        raise


def is_special(target: bytes) -> bool:
    """Whether there is something that is no file, as a pipe or a device: it can only be written to."""
    try:
        return not stat.S_ISREG(os.stat(target).st_mode)
    except FileNotFoundError:
        return False


def mode_of(target: bytes) -> int:
    """The mode of a file, or the one that a new file gets."""
    try:
        return stat.S_IMODE(os.stat(target).st_mode)
    except FileNotFoundError:
        mask = os.umask(0)
        os.umask(mask)
        return 0o666 & ~mask
