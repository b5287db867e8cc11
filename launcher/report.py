"""What is printed of the answers: the lines of one trace, or a line for each and a total, in several forms."""
from __future__ import annotations

import os

from launcher.checker import Answer
from launcher.names import said, shown
from launcher.streams import Output, progress, say

PLAIN, SUMMARY = "plain", "summary"  # the third is "lines"
SAID = 10  # traces that can't be read, or are texts, that are named at the end


class Total:
    """What all answers come to."""

    def __init__(self) -> None:
        self.traces = 0
        self.accepted = self.refused = 0    # steps
        self.unreadable = self.failed = 0   # traces: that can't be read, and with refused steps

    def add(self, answer: Answer) -> None:
        self.traces += 1
        self.accepted += answer.accepted
        self.refused += answer.refused
        self.unreadable += bool(answer.fault)
        self.failed += bool(answer.refused)

    def numbers(self) -> list[int]:
        return [self.traces, self.accepted, self.refused, self.unreadable, self.failed]

    def status(self) -> int:
        """The exit status: only 0 passes a release."""
        if self.unreadable:
            return 2
        return 1 if self.refused else 0


def first_of(answer: Answer) -> str:
    return "%d:%d" % answer.first if answer.first else "-"


def columns(answer: Answer) -> list[bytes]:
    """A trace's line in a table: its name, accepted and refused steps, and the first refusal."""
    if answer.fault:
        return [shown(answer.name), b"-", b"-", b"unreadable"]
    return [shown(answer.name), b"%d" % answer.accepted, b"%d" % answer.refused, first_of(answer).encode()]


def total_columns(total: Total) -> list[bytes]:
    return [b"total", *(b"%d" % number for number in total.numbers())]


class Report:
    """A form of output: each answer in its turn, then what they come to."""

    def add(self, answer: Answer) -> None:
        raise NotImplementedError

    def end(self, total: Total) -> None:
        raise NotImplementedError


class Rows(Report):
    """Columns with a tab between them. Other programs read them, and `glubotar join` does."""

    def __init__(self, output: Output, form: str) -> None:
        self.output, self.form = output, form

    def add(self, answer: Answer) -> None:
        if self.form == SUMMARY:
            self.output.write(b"\t".join(columns(answer)) + b"\n")
        elif self.form == PLAIN:
            self.output.write(answer.text)
        elif answer.fault:
            self.output.write(shown(answer.name) + b"\tunreadable\n")
        else:
            before = shown(answer.name) + b"\t"
            self.output.write(b"".join(before + line for line in answer.text.splitlines(keepends=True)))

    def end(self, total: Total) -> None:
        if self.form != PLAIN:
            self.output.write(b"\t".join(total_columns(total)) + b"\n")


class Table(Rows):
    """The summary on a terminal: columns of one width, and what is to be looked at last, where it is seen."""

    HEAD = [b"trace", b"accepted", b"refused", b"first"]

    def __init__(self, output: Output, names: list[bytes], colours: bool) -> None:
        super().__init__(output, SUMMARY)
        self.width = max(len(os.fsdecode(shown(name))) for name in names + [self.HEAD[0]])
        self.colours = colours
        self.held: list[Answer] = []
        self.put(self.HEAD)

    def put(self, cells: list[bytes], colour: bytes = b"") -> None:
        gap = self.width - len(os.fsdecode(cells[0]))
        line = cells[0] + b" " * gap + b"".join(b"  %10s" % cell for cell in cells[1:])
        self.output.write(b"\x1b[%sm%s\x1b[0m\n" % (colour, line) if self.colours and colour else line + b"\n")

    def add(self, answer: Answer) -> None:
        if answer.refused or answer.fault:
            self.held.append(answer)
        else:
            self.put(columns(answer))

    def end(self, total: Total) -> None:
        for answer in self.held:
            self.put(columns(answer), b"33" if answer.fault else b"31")
        words = [f"{total.traces} traces", f"{total.failed} refused", f"{total.unreadable} unreadable",
                 f"{total.accepted} steps accepted", f"{total.refused} refused"]
        self.output.write((", ".join(words) + "\n").encode())


class Conclusion:
    """The sentences at the end, on what is to be looked at."""

    def __init__(self) -> None:
        self.refused: list[str] = []     # the first trace with its first refused step
        self.steps = 0                   # that are refused
        self.unreadable: list[str] = []  # with the reason
        self.texts: list[str] = []

    def add(self, answer: Answer) -> None:
        if answer.fault:
            self.unreadable.append(f"{said(answer.name)}: {answer.fault}")
        elif answer.refused:
            self.steps += answer.refused
            if not self.refused:
                self.refused.append(f"{said(answer.name)} {first_of(answer)}")
            if answer.is_text:
                self.texts.append(said(answer.name))

    def say(self, explained: bool = False) -> None:
        say_some("refused", self.refused, self.steps, "step")
        say_some("unreadable", self.unreadable[:SAID], len(self.unreadable), "trace")
        say_some("looks like a text, of which `glubotar asm` makes a trace", self.texts[:SAID], len(self.texts), "trace")
        if self.refused and progress.terminal and not explained:
            say("`glubotar explain` says in words what was refused, and where to look")


def say_some(kind: str, some: list[str], count: int, what: str) -> None:
    """Says some of what there is, a sentence to each, and behind the last how many more there are."""
    for at, one in enumerate(some, 1):
        more = count - len(some) if at == len(some) else 0
        say(f"{kind}: {one}" + (f", and {more} more {what}{'s' if more > 1 else ''}" if more else ""))
