"""The check of traces, from their names to the exit status."""
from __future__ import annotations

import os

from launcher.checker import Answer, Checker
from launcher.names import Names, standard_input
from launcher.options import Options
from launcher.processes import Processes
from launcher.project import Project
from launcher.report import PLAIN, SUMMARY, Conclusion, Report, Rows, Table, Total
from launcher.streams import Failure, Output, progress


def check(options: Options, output: Output, root: str) -> int:
    """Prints what the checker says of every trace that is named. As many answers as names, or it fails."""
    found = Names(options.words)
    names = found.names or [standard_input()]
    form = options.form or (PLAIN if len(names) == 1 and not found.listed else SUMMARY)
    command = Project(root).command()
    report = report_of(options, output, form, names, root)
    conclusion, total = Conclusion(), Total()
    show_count(0, len(names))
    with Processes() as processes:
        for answers in Checker(command, processes, form != SUMMARY).answers(names, jobs_of(options)):
            for answer in answers:
                ask_for_cut(answer, found)
                if answer.refused or answer.fault or not options.failed:
                    report.add(answer)
                conclusion.add(answer)
                total.add(answer)
            output.flush()
            show_count(total.traces, len(names))
    progress.erase()
    if total.traces != len(names):
        raise Failure(f"{total.traces} of {len(names)} traces were answered")
    report.end(total)
    output.close()
    conclusion.say()
    return total.status()


def jobs_of(options: Options) -> int:
    return options.jobs or len(os.sched_getaffinity(0))


def ask_for_cut(answer: Answer, found: Names) -> None:
    """A list that was cut ends in the beginning of a name."""
    if answer.fault and answer.name in found.unended:
        answer.fault += f"; was the list cut? {found.unended[answer.name]}"


def show_count(done: int, count: int) -> None:
    if count > 1:
        progress.show(f"{done} of {count} traces")


def report_of(options: Options, output: Output, form: str, names: list[bytes], root: str) -> Report:
    if options.format == "text" and form == SUMMARY and output.terminal:
        return Table(output, names, not os.environ.get("NO_COLOR") and os.environ.get("TERM", "dumb") != "dumb")
    if options.format in ("text", "tsv"):
        return Rows(output, form)
    from launcher.forms import Json, Junit
    if options.format == "json":
        return Json(output, form)
    from launcher.sentences import read_refusals
    return Junit(output, form, read_refusals(root))
