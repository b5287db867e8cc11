"""The command line: a command, its options, and the traces or files that it names."""
from __future__ import annotations

import os

COMMANDS = ("check", "explain", "show", "asm", "join", "install")


class Options:
    """What a command line says, and what holds where it says nothing."""
    help = False
    version = False
    form: str | None = None  # lines or summary
    failed = False
    format = "text"
    jobs: int | None = None
    all = False
    numbered = False
    out = "-"
    prefix: str | None = None

    def __init__(self) -> None:
        self.words: list[tuple[str, bytes]] = []  # names, and lists of names, in the order in which they are given

    def names(self) -> list[bytes]:
        return [name for _, name in self.words]


def read_command_line(words: list[str]) -> tuple[str, Options]:
    """The command and its options. A first word that is a command is no trace."""
    options = Options()
    command = words[0] if words and words[0] in COMMANDS else "check"
    rest = words[1:] if words and words[0] in COMMANDS else words
    if any(word.startswith("-") and word != "-" for word in rest):
        from launcher.parser import parse
        parse(command, rest, options)
    else:  # names alone
        options.words = [("trace", os.fsencode(word)) for word in rest]
    return command, options
