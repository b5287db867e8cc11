"""Running the checker over traces: in groups, some side by side, each trace answered in its turn."""
from __future__ import annotations

import codecs
import os
from collections.abc import Iterator

from launcher import MOST_BYTES
from launcher.names import STANDARD_INPUT, said
from launcher.processes import Processes
from launcher.streams import Failure, read_file, reason

GROUP_TRACES = 1024  # in one process
KEPT_TRACES = 64     # the same where all lines are kept until it is their turn
GROUP_BYTES = 65536  # of names in one process, below what any command line holds
LONGEST_NAME = 4095  # no file has a longer one
TEXT_CONTROL = set(range(32)) - set(b"\t\n\r")  # bytes that no text has
AT_THE_START = ((0, 4), (1, 1), (0, 21))  # where a text is refused that is taken for a trace


class Answer:
    """What the checker said of one trace."""
    __slots__ = ("name", "accepted", "refused", "first", "fault", "text", "is_text")

    def __init__(self, name: bytes, accepted: int = 0, refused: int = 0, first: tuple[int, int] | None = None,
                 fault: str = "", text: bytes = b"") -> None:
        self.name = name
        self.accepted, self.refused = accepted, refused  # steps
        self.first = first  # the first refused step and the number that refuses it
        self.fault = fault  # why the trace can't be read, or nothing
        self.text = text    # the checker's lines, where they are asked for
        self.is_text = False  # the trace looks like a text


class Checker:
    def __init__(self, command: list[str], processes: Processes, keep_text: bool) -> None:
        self.command = [os.fsencode(word) for word in command]
        self.processes = processes
        self.keep_text = keep_text

    def answers(self, names: list[bytes], jobs: int) -> Iterator[list[Answer]]:
        """The answers to all traces, in their order, group by group. Fails where one is missing."""
        groups = grouped(names, jobs, KEPT_TRACES if self.keep_text else GROUP_TRACES)
        if jobs == 1 or len(groups) == 1:
            yield from map(self.answer_group, groups)
            return
        from launcher.side_by_side import in_order
        yield from in_order(self.answer_group, groups, jobs)

    def answer_group(self, names: list[bytes]) -> list[Answer]:
        """The answers to some traces by one process, read as they come. All that it prints belongs to one of them."""
        if len(names[0]) > LONGEST_NAME:
            return [Answer(names[0], fault="its name is too long")]
        if is_read_here(names[0]):
            return [self.answer_read(names[0])]
        answers: list[Answer] = []
        rest = b""
        with self.processes.started(self.command + names) as process:
            for piece in process.pieces():
                rest = self.take_answers(names, answers, rest + piece)
        if len(answers) < len(names) or rest or process.status != 0:
            raise broke_off(names[min(len(answers), len(names) - 1)])
        return answers

    def answer_read(self, name: bytes) -> Answer:
        """The answer to a trace that is read here."""
        try:
            trace = read_file(name, MOST_BYTES + 1)
        except OSError as error:
            return Answer(name, fault=reason(error))
        return self.answer_bytes(name, trace)

    def answer_bytes(self, name: bytes, trace: bytes) -> Answer:
        """The answer to the bytes of a trace."""
        with self.processes.started(self.command, given=True) as process:
            process.give(trace)
            text = b"".join(process.pieces())
        answer, after = self.take_text(name, text, 0)
        if answer is None or after != len(text) or process.status != 0:
            raise broke_off(name)
        answer.is_text = answer.first in AT_THE_START and looks_like_text(trace)
        return answer

    def take_answers(self, names: list[bytes], answers: list[Answer], output: bytes) -> bytes:
        """Adds the answers that stand whole in some output, and gives back what is left of it."""
        at = 0
        while len(answers) < len(names):
            name = names[len(answers)]
            answer = None
            if output.startswith(b"file %s\n" % name, at):
                answer, after = self.take_text(name, output, at + len(name) + 6)
                if answer and answer.first in AT_THE_START:
                    answer.is_text = names_a_text(name)
            elif output.startswith(b"unreadable %s\n" % name, at):
                answer, after = Answer(name, fault=why_unreadable(name)), at + len(name) + 12
            if answer is None:
                break
            answers.append(answer)
            at = after
        return output[at:]

    def take_text(self, name: bytes, output: bytes, start: int) -> tuple[Answer | None, int]:
        """The answer whose lines begin at a place, if they stand there whole, and the place after them. What the end line
        counts has to be there."""
        end = start if output.startswith(b"end ", start) else output.find(b"\nend ", start) + 1
        after = output.find(b"\n", end) + 1
        words = output[end:after].split(b" ")
        if words[0] != b"end" or len(words) != 3:
            return None, start
        accepted, refused = number(words[1]), number(words[2][:-1])
        if accepted + refused != lines_between(output, start, end) or refused != output.count(b" no ", start, end):
            raise Failure(f"the checker's lines don't add up for {said(name)}")
        first = first_refused(output, start, end) if refused else None
        text = output[start:after] if self.keep_text else b""
        return Answer(name, accepted, refused, first, "", text), after


def is_read_here(name: bytes) -> bool:
    """Whether the checker gets the bytes and not the name: of standard input, which may be a pipe that doesn't block, and of a
    file whose name is no UTF-8, which the checker can't open."""
    try:
        name.decode()
    except UnicodeDecodeError:
        return True
    return name == STANDARD_INPUT


def number(word: bytes) -> int:
    if not word.isdigit():
        raise Failure("the checker prints what is no number: " + said(word))
    return int(word)


def lines_between(output: bytes, start: int, end: int) -> int:
    """How many lines stand between two places: they are numbered from 1 on, or the only one is 0."""
    if start == end:
        return 0
    last = max(output.rfind(b"\n", start, end - 1) + 1, start)
    return number(output[last:output.find(b" ", last)]) or 1


def first_refused(output: bytes, start: int, end: int) -> tuple[int, int]:
    """The step and the number of the first line `N no R` between two places."""
    at = output.find(b" no ", start, end)
    line = max(output.rfind(b"\n", start, at) + 1, start)
    return number(output[line:at]), number(output[at + 4:output.find(b"\n", at)])


def broke_off(name: bytes) -> Failure:
    return Failure(f"the checker broke off at {said(name)}")


def why_unreadable(name: bytes) -> str:
    try:
        read_file(name, 1)
    except OSError as error:
        return reason(error)
    return "it couldn't be read just now"


def names_a_text(name: bytes) -> bool:
    if not os.path.isfile(name):  # what is read from a pipe is gone
        return False
    try:
        return looks_like_text(read_file(name, 4096))
    except OSError:
        return False


def looks_like_text(data: bytes) -> bool:
    """Whether some thousand bytes are UTF-8 and have none that no text has."""
    start = data[:4096]
    try:
        codecs.getincrementaldecoder("utf-8")().decode(start)  # its last letter may be cut
    except UnicodeDecodeError:
        return False
    return bool(start) and not TEXT_CONTROL.intersection(start)


def grouped(names: list[bytes], jobs: int, most: int) -> list[list[bytes]]:
    """Groups of traces in their order: four to a job, so that none is idle for long at the end. What is read here, and a name
    that no file can have, stand alone."""
    most = min(most, (len(names) - 1) // (4 * jobs) + 1)
    groups: list[list[bytes]] = []
    size = 0
    alone = True
    for name in names:
        was_alone, alone = alone, len(name) > LONGEST_NAME or is_read_here(name)
        if alone or was_alone or len(groups[-1]) == most or size + len(name) > GROUP_BYTES:
            groups.append([])
            size = 0
        groups[-1].append(name)
        size += len(name) + 1
    return groups
