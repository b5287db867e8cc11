"""What the checker's lines for a trace say, in words. Every verdict is the checker's: none is found here."""
import os
import re
import textwrap
from typing import Collection, Dict, Iterator, List, Sequence, Tuple

from launcher import MOST_BYTES
from launcher.checker import Answer, Checker
from launcher.kinds import BY_BYTE, COMPLEMENT, MOST_WARPS, REDUCTIONS, SIZE, steps, values_of
from launcher.names import Names, said, standard_input
from launcher.options import Options
from launcher.processes import Processes
from launcher.project import Project
from launcher.report import Conclusion, Total
from launcher.sentences import read_refusals, said_of
from launcher.streams import Failure, Output, read_file, reason
from launcher.text_form import byte_text, step_text, token_text
from launcher.verdicts import Verdict, verdict_of

END = re.compile(r"end ([0-9]+) ([0-9]+)")
ENDS_THE_CHECK = (1, 2)  # refusals after which no step is read
WIDTH = 88
INDENT = "    "


def verdicts_of(text: bytes) -> List[Verdict]:
    """The checker's lines, which have to be whole: numbered in order, and as many as the last line says."""
    lines = text.decode("ascii", "replace").splitlines()
    end = END.fullmatch(lines[-1]) if lines else None
    if not end:
        raise ValueError("The checker's lines lack their end.")
    verdicts = [verdict_of(line) for line in lines[:-1]]
    refused = sum(verdict.refusal > 0 for verdict in verdicts)
    first = 0 if verdicts and verdicts[0].step == 0 else 1
    in_order = all(verdict.step == first + at for at, verdict in enumerate(verdicts))
    if not in_order or (int(end[1]), int(end[2])) != (len(verdicts) - refused, refused):
        raise ValueError("The checker's lines don't add up to their end, so some are missing.")
    return verdicts


def refused_whole(verdicts: Sequence[Verdict]) -> bool:
    """Whether the trace was refused before its steps."""
    return bool(verdicts) and verdicts[0].step == 0


def hold_to(name: str, trace: bytes, whole: Sequence[bytes], verdicts: Sequence[Verdict]) -> None:
    """Raises ValueError where the lines are of another trace, as far as their number and their end tell."""
    begins = bool(trace) and 1 <= trace[0] <= MOST_WARPS and len(trace) <= MOST_BYTES
    unread = begins and 1 + sum(map(len, whole)) < len(trace)
    awaited = len(whole) + unread if begins else 0
    stops = [verdict.step for verdict in verdicts if verdict.refusal in ENDS_THE_CHECK]
    fits = len(verdicts) == awaited and stops == ([awaited] if unread else [])
    if refused_whole(verdicts):
        fits = len(verdicts) == 1 and not begins
    if not fits or not (begins or verdicts):
        raise ValueError(f"The checker's lines for {name} don't fit it: {counted(awaited, 'step')} "
                         f"to be judged, {counted(len(verdicts), 'line')}.")


def counted(count: int, what: str) -> str:
    return f"{count:,} {what}" + ("" if count == 1 else "s")


def warps_text(warps: Collection[int]) -> str:
    """Warps by their numbers: warp 3; warps 0, 1; warps 0 to 31."""
    runs: List[List[int]] = []
    for warp in sorted(warps):
        if runs and runs[-1][-1] == warp - 1:
            runs[-1].append(warp)
        else:
            runs.append([warp])
    texts = [f"{run[0]} to {run[-1]}" if len(run) > 2 else ", ".join(map(str, run)) for run in runs]
    return ("warp " if len(warps) == 1 else "warps ") + ", ".join(texts)


def wrapped(sentence: str, indent: str = INDENT) -> str:
    return textwrap.fill(sentence, WIDTH, initial_indent=indent, subsequent_indent=indent,
                         break_long_words=False, break_on_hyphens=False)


class Warps:
    """Who waits and who has exited, as the checker's lines tell it."""

    def __init__(self, count: int) -> None:
        self.here = set(range(count))
        self.waiting: Dict[int, bytes] = {}  # the step at which each waiting warp waits

    def take(self, step: bytes, verdict: Verdict) -> None:
        """Follows an accepted step."""
        if BY_BYTE[step[0]].after == "exits":
            self.here.discard(step[1])
        if BY_BYTE[step[0]].after == "waits":
            self.waiting[step[1]] = step
        for warp in verdict.released:
            self.waiting.pop(warp, None)

    def at_the_end(self) -> str:
        if not self.here:
            return "When it ends, every warp has exited."
        left = f"When it ends, {warps_text(self.here)} {'has' if len(self.here) == 1 else 'have'} not exited"
        if not self.waiting:
            return left + "."
        waits = "waits" if len(self.waiting) == 1 else "wait"
        return f"{left}, and {warps_text(self.waiting)} still {waits} at a barrier."


def completed(step: bytes, verdict: Verdict, warps: Warps) -> Iterator[str]:
    """What an accepted step completed. An exit names no barrier: those whom it released waited there."""
    values = values_of(step)
    if "address" in values:
        yield "ends the phase"
        return
    met = values
    if "barrier" not in values:
        at = [values_of(warps.waiting[warp]) for warp in verdict.released if warp in warps.waiting]
        met = at[0] if at else {}
    yield f"completes barrier {met['barrier']}" if "barrier" in met else "completes a barrier"
    if "selector" in met:
        yield f"the reduction ({REDUCTIONS[met['selector'] % COMPLEMENT]}) gives {verdict.value}"


def answered(step: bytes, value: int) -> Iterator[str]:
    """What the value of an accepted step says by itself."""
    answer, values = BY_BYTE[step[0]].answer, values_of(step)
    if answer == "token":
        yield (f"gives {token_text(value)}: phase {value >> 26} of the object at {(value >> 20) % 64 * 8}, "
               f"{value % (1 << 20)} pending before it")
    if answer == "pending":
        yield f"answers {value}, the pending count in the token"
    if answer == "test":
        which = f"phase {values['token'] >> 26}" if "token" in values else f"the phase of parity {values['parity']}"
        yield f"answers yes, {which} is over" if value else f"answers no, {which} is not over"


def accepted(step: bytes, verdict: Verdict, warps: Warps) -> str:
    parts = list(answered(step, verdict.value))
    if verdict.done:
        parts += completed(step, verdict, warps)
    if verdict.released:
        parts.append(f"releases {warps_text(verdict.released)}")
    if BY_BYTE[step[0]].after == "waits" and step[1] not in verdict.released:
        parts.append(f"warp {step[1]} waits at barrier {values_of(step)['barrier']}")
    return wrapped("accepted" + (": " if parts else "") + "; ".join(parts))


def refused(verdict: Verdict, sentences: Dict[int, Tuple[str, str]]) -> str:
    if verdict.refusal not in sentences:
        raise ValueError(f"There is no sentence for the refusal {verdict.refusal}.")
    why, look = (said_of(verdict.step, sentence) for sentence in sentences[verdict.refusal])
    return wrapped(f"refused ({verdict.refusal}) because {why}") + "\n" + wrapped(f"Where to look: {look}")


def unread_text(verdict: Verdict, rest: bytes, sentences: Dict[int, Tuple[str, str]]) -> List[str]:
    """The step at which the check ended, of which there are no whole bytes."""
    shown = byte_text(rest[:8]) + (", .." if len(rest) > 8 else "")
    what = f"{BY_BYTE[rest[0]].name}, a step of {SIZE[rest[0]]} bytes" if rest[0] in SIZE else "no kind of step"
    return [f"step {verdict.step}  {shown}", refused(verdict, sentences),
            wrapped(f"The byte 0x{rest[0]:02x} begins {what}. From it on, {counted(len(rest), 'byte')} "
                    f"of the trace {'is' if len(rest) == 1 else 'are'} not read.")]


def last_lines(verdicts: Sequence[Verdict], warps: Warps) -> List[str]:
    numbers = [verdict.step for verdict in verdicts if verdict.refusal]
    if not numbers:
        return [wrapped("Nothing is refused. That does not say that the kernel ends: warps that wait to the end "
                        f"of a trace are not refused. {warps.at_the_end()}", "")]
    if len(numbers) == 1:
        return []
    return [wrapped(f"Look at step {numbers[0]} first: refusals after the first often follow from it.", "")]


def explained(name: str, trace: bytes, text: bytes, sentences: Dict[int, Tuple[str, str]],
              every: bool = False) -> str:
    """The checker's lines `text` for a trace in words: of each refused step, or of every step."""
    verdicts, whole = verdicts_of(text), list(steps(trace))
    hold_to(name, trace, whole, verdicts)
    if refused_whole(verdicts):
        block = f", {counted(trace[0], 'warp')}" if trace else ""
        size = counted(len(trace), "byte") if len(trace) <= MOST_BYTES else f"more than {MOST_BYTES:,} bytes"
        return (f"{name}: {size}{block}; refused as a whole, no step is read\n"
                + refused(verdicts[0], sentences) + "\n")
    warps, bad = Warps(trace[0]), sum(verdict.refusal > 0 for verdict in verdicts)
    lines = [f"{name}: {counted(trace[0], 'warp')}, {counted(len(verdicts), 'step')}: "
             f"{len(verdicts) - bad:,} accepted, {bad:,} refused"]
    for step, verdict in zip(whole, verdicts):
        if verdict.refusal:
            lines += [f"step {verdict.step}  {step_text(step)}", refused(verdict, sentences)]
            continue
        if every:
            lines += [f"step {verdict.step}  {step_text(step)}", accepted(step, verdict, warps)]
        warps.take(step, verdict)
    rest = trace[1 + sum(map(len, whole)):]
    if rest:
        lines += unread_text(verdicts[-1], rest, sentences)
    return "\n".join(lines + last_lines(verdicts, warps)) + "\n"


def explain(options: Options, output: Output, root: str) -> int:
    """Explains every trace that is named. What is explained is read once, and what the checker is given is that."""
    names = Names(options.words).names or [standard_input()]
    sentences, command = read_refusals(root), Project(root).command()
    summary, total = Conclusion(), Total()
    with Processes() as processes:
        checker = Checker(command, processes, keep_text=True)
        for name in names:
            answer = explain_one(name, checker, sentences, options.all, output)
            summary.add(answer)
            total.add(answer)
            output.flush()
    output.close()
    summary.say(explained=True)
    return total.status()


def explain_one(name: bytes, checker: Checker, sentences: Dict[int, Tuple[str, str]], every: bool, output: Output) -> Answer:
    try:
        trace = read_file(name, MOST_BYTES + 1)
    except OSError as error:
        output.write(os.fsencode(f"{said(name)}: unreadable: {reason(error)}\n"))
        return Answer(name, fault=reason(error))
    answer = checker.answer_bytes(name, trace)
    try:
        text = explained(said(name), trace, answer.text, sentences, every)
    except ValueError as error:
        raise Failure(str(error)) from None
    output.write(text.encode("utf-8", "surrogateescape"))
    return answer
