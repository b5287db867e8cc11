"""The traces that a command line names: words, lists and folders. A name is bytes, as the system has it."""
from __future__ import annotations

import os
from collections.abc import Iterator

from launcher.streams import Failure, file_of, read_file, reason

STANDARD_INPUT = b"-"
ESCAPES = {"\t": "\\t", "\n": "\\n", "\r": "\\r"}


def shown(name: bytes) -> bytes:
    """A name on one line and in one column: what would break it, or move a terminal's cursor, is escaped."""
    text = os.fsdecode(name)
    if text.isprintable():
        return name
    return os.fsencode("".join(map(escaped, text)))


def escaped(letter: str) -> str:
    if letter >= " " and not "\x7f" <= letter <= "\x9f":
        return letter
    return ESCAPES.get(letter, f"\\x{ord(letter):02x}")


def said(name: bytes) -> str:
    """The same in a sentence."""
    return os.fsdecode(shown(name))


def standard_input() -> bytes:
    """The name of standard input, where no other is given."""
    if os.isatty(0):
        raise Failure("nothing is named, and standard input is a terminal; see --help")
    return STANDARD_INPUT


class Names:
    """What some words name, each of them a `trace`, a list of lines (`from`) or one of names that end in NUL (`from0`)."""

    def __init__(self, words: list[tuple[str, bytes]]) -> None:
        self.names: list[bytes] = []
        self.listed = False               # a list or a folder named some of them
        self.unended: dict[bytes, str] = {}  # for the last name of a list that has no end, the list
        inputs = 0
        for option, word in words:
            if option == "trace":
                self.add(word)
                continue
            inputs += word == STANDARD_INPUT
            self.listed = True
            for name in self.read_list(word, option == "from0"):
                if name in self.unended and os.path.isdir(name):
                    raise Failure(f"the list's last name has no end and is a folder, {said(name)}: was it cut? {said(word)}")
                self.add(name)
        if inputs + self.names.count(STANDARD_INPUT) > 1:
            raise Failure("standard input is named more than once")
        if self.listed and not self.names:
            raise Failure("the list names no trace")

    def add(self, name: bytes) -> None:
        """Adds the traces under a name: itself, or those in the folder that it names."""
        if not name:
            raise Failure("a name is empty")
        if name == STANDARD_INPUT or not os.path.isdir(name):
            self.names.append(name)
            return
        self.listed = True
        self.names += traces_in(name)

    def read_list(self, name: bytes, by_nul: bool) -> list[bytes]:
        """The names that a list holds."""
        try:
            whole = read_file(name)
        except OSError as error:
            raise Failure(f"the list of traces can't be read: {said(name)}: {reason(error)}") from None
        *lines, rest = whole.split(b"\0" if by_nul else b"\n")
        if by_nul:
            if rest:
                raise Failure(f"the list is cut: its last name, {said(rest)}, has no NUL after it: {said(name)}")
            return lines
        if b"\0" in whole:
            raise Failure(f"the list holds a NUL byte: is it one for --from0? {said(name)}")
        if b"\r\n" in whole or rest.endswith(b"\r"):
            raise Failure(f"a name ends in a carriage return: is the list a Windows file? {said(name)}")
        if rest:
            self.unended[rest] = said(name)
        return [line for line in [*lines, rest] if line]


def traces_in(folder: bytes) -> list[bytes]:
    try:
        found = list(gone_through(folder))
    except OSError as error:
        at = os.fsencode(file_of(error, os.fsdecode(folder)))
        raise Failure(f"a folder can't be gone through: {said(at)}: {reason(error)}") from None
    if not found:
        raise Failure(f"no *.trace is in the folder {said(folder)}")
    return found


def gone_through(folder: bytes) -> Iterator[bytes]:
    """The files *.trace in a folder and in those inside it, in the order of their names. Links are followed, but not in a circle."""
    above = [(os.path.realpath(folder), entries_of(folder))]
    while above:
        entry = next(above[-1][1], None)
        if entry is None:
            above.pop()
        elif entry.is_dir():
            place = os.path.realpath(entry.path)
            if place not in [other for other, _ in above]:
                above.append((place, entries_of(entry.path)))
        elif entry.name.endswith(b".trace"):
            if os.path.exists(entry.path) and not entry.is_file():
                raise Failure(f"what is in a folder has to be a file: {said(entry.path)}")
            yield entry.path
        elif entry.is_symlink() and not os.path.exists(entry.path):
            raise Failure(f"a link leads nowhere: {said(entry.path)}")


def entries_of(folder: bytes) -> Iterator[os.DirEntry[bytes]]:
    with os.scandir(folder) as entries:
        return iter(sorted(entries, key=lambda entry: entry.name))
