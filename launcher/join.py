"""The outputs of several runs put together: their lines in order, and one total."""
from __future__ import annotations

import re
from collections.abc import Iterator

from launcher.checker import Answer
from launcher.names import said, standard_input
from launcher.report import Conclusion, Rows, SUMMARY, Total, total_columns
from launcher.streams import Failure, Output, read_file, reason

LINE = re.compile(rb"([^\t]*)\t(?:([0-9]{1,18})\t([0-9]{1,18})\t(?:-|([0-9]{1,18}):([0-9]{1,18}))|-\t-\tunreadable)")


def answers_of(name: bytes) -> Iterator[Answer]:
    """The answers in one output, or in several after each other. Fails unless they are followed by their total."""
    broken = Failure(f"no whole output of a run over several traces: {said(name)}")
    try:
        whole = read_file(name)
    except OSError as error:
        raise Failure(f"an output can't be read: {said(name)}: {reason(error)}") from None
    *lines, rest = whole.split(b"\n")
    total, ended = Total(), False
    for line in lines:
        found = LINE.fullmatch(line)
        answer = answer_of(found) if found else None
        if answer and bool(answer.refused) == bool(answer.first):
            total.add(answer)
            ended = False
            yield answer
        elif total.traces and line == b"\t".join(total_columns(total)):
            total, ended = Total(), True
        else:
            raise broken
    if rest or not ended:
        raise broken


def answer_of(line: re.Match[bytes]) -> Answer:
    name, accepted, refused, step, number = line.groups()
    if accepted is None:
        return Answer(name, fault="so says its run")
    return Answer(name, int(accepted), int(refused), (int(step), int(number)) if step else None)


def join(names: list[bytes], output: Output) -> int:
    """Prints what all outputs hold, and answers the exit status of a run over all of their traces."""
    if names.count(b"-") > 1:
        raise Failure("standard input is named more than once")
    answers = [answer for name in names or [standard_input()] for answer in answers_of(name)]
    report, conclusion, total = Rows(output, SUMMARY), Conclusion(), Total()
    for answer in answers:
        report.add(answer)
        conclusion.add(answer)
        total.add(answer)
    report.end(total)
    output.close()
    conclusion.say()
    return total.status()
