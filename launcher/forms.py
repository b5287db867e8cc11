"""The forms of output that other programs read: JSON, an object to a line, and JUnit's XML for a CI server."""
from __future__ import annotations

import json
import os
import re
from typing import Any
from xml.sax.saxutils import escape, quoteattr

from launcher.checker import Answer
from launcher.names import said
from launcher.report import PLAIN, SUMMARY, Report, Total
from launcher.sentences import said_of
from launcher.streams import Failure, Output
from launcher.verdicts import verdict_of

NO_XML = re.compile("[\ud800-\udfff\ufffe\uffff]")  # what no XML has: bytes that are no UTF-8 among it


def step_of(line: str) -> dict[str, Any]:
    """A line of the checker as an object."""
    try:
        verdict = verdict_of(line)
    except ValueError as error:
        raise Failure(str(error)) from None
    if verdict.refusal:
        return {"step": verdict.step, "ok": False, "refusal": verdict.refusal}
    return {"step": verdict.step, "ok": True, "value": verdict.value, "done": verdict.done,
            "released": list(verdict.released)}


class Json(Report):
    """Names are exact: a byte that is no UTF-8 is U+DC80 to U+DCFF, as Python has it."""

    def __init__(self, output: Output, form: str) -> None:
        self.output, self.form = output, form

    def put(self, value: dict[str, Any]) -> None:
        self.output.write(json.dumps(value).encode() + b"\n")

    def add(self, answer: Answer) -> None:
        value: dict[str, Any] = {"trace": os.fsdecode(answer.name)}
        if answer.fault:
            self.put({**value, "unreadable": answer.fault})
            return
        value.update(accepted=answer.accepted, refused=answer.refused, first=None)
        if answer.first:
            value["first"] = {"step": answer.first[0], "refusal": answer.first[1]}
        if self.form != SUMMARY:
            value["steps"] = [step_of(line) for line in answer.text.decode().splitlines()[:-1]]
        self.put(value)

    def end(self, total: Total) -> None:
        if self.form != PLAIN:
            self.put({"total": {"traces": total.traces, "accepted": total.accepted, "refused": total.refused,
                                "unreadable": total.unreadable, "traces_refused": total.failed}})


class Junit(Report):
    """A test case for each trace: refused steps are a failure, and a trace that can't be read is an error."""

    def __init__(self, output: Output, form: str, sentences: dict[int, tuple[str, str]]) -> None:
        self.output, self.form, self.sentences = output, form, sentences
        self.cases: list[str] = []

    def add(self, answer: Answer) -> None:
        inside = ""
        if answer.fault:
            inside = f"<error message={quoteattr('unreadable: ' + answer.fault)}/>"
        elif answer.first:
            step, number = answer.first
            sentence = said_of(step, self.sentences.get(number, ("see the table",))[0])
            message = f"step {step} is refused by {number}: {sentence}"
            count = f"{answer.refused} of {answer.accepted + answer.refused} steps are refused"
            inside = f'<failure type="{number}" message={quoteattr(message)}>{count}</failure>'
        if self.form != SUMMARY and answer.text:
            inside += f"<system-out>{escape(answer.text.decode())}</system-out>"
        case = f'<testcase classname="glubotar" name={quoteattr(said(answer.name))}>{inside}</testcase>\n'
        self.cases.append(NO_XML.sub(lambda found: f"\\u{ord(found[0]):04x}", case))

    def end(self, total: Total) -> None:
        head = (f'<?xml version="1.0" encoding="UTF-8"?>\n<testsuite name="glubotar" tests="{len(self.cases)}" '
                f'failures="{total.failed}" errors="{total.unreadable}">\n')
        self.output.write((head + "".join(self.cases) + "</testsuite>\n").encode())
