"""What a page names in backquotes, and whether the project has it."""
import pathlib
import re
from typing import Iterator, List, NamedTuple

from declared import Declared

SPAN = re.compile(r"`([^`]+)`")
PATH = re.compile(r"(?:\./)?[\w.+-]+(?:/[\w.+-]+)*/?")
FILE = re.compile(r"[\w-]+\.(?:antt|edit|md|rt|txt)")
CODE = re.compile(r"\w+(?:::\w+)+")
MEMBER = re.compile(r"([A-Z]\w*)\.(\w+)")
NAME = re.compile(r"[A-Za-z][A-Za-z0-9_-]+")  # nothing of the project has a dash in its name
NUMBER_TYPE = re.compile(r"[iu](?:8|16|32|64|size)")
CALLED_LAW = re.compile(r"\blaws?,? $")
FOLDERS = ("src/", "specs/", "proofs/", "must-fail/")  # those of a crate: a path that begins so is held in any crate
STAND_IN = re.compile(r"(?:[A-Z]|[A-Z]{2,})(?:\..*)?")  # X.antt, FUNCTION: whoever reads puts a name there

# Words that look like names of the project and are none, by what they are.
FOREIGN = {
    "the language": {"ensures", "for", "if", "match", "requires", "static"},
    "the language's library": {"get_mut"},
    "the C library": {"read", "write", "SIZE_MAX"},
    "glubotar's commands": {"asm", "explain", "install", "join", "show"},
    "other programs": {"cat", "parallel", "qemu-user", "qemu-x86_64", "rsync", "rt"},
    "PTX": {"and", "atom", "barrier", "exit", "or", "popc", "vote"},
    "traces of bench": {"barriers", "held", "mixed", "objects", "reds"},
    "rt's folders": {"must-fail"},
    "the kit's crates": {"libc", "os", "std"},
    "the kit's logic and tools": {"Is", "all_from_yields_List", "cc", "err_from_is_err_and", "owed", "rw", "using"},
}
FOREIGN_WORDS = set().union(*FOREIGN.values())


class Span(NamedTuple):
    line: int
    text: str
    before: str       # what stands between it and the span before it, in the same line
    after: str        # what stands between it and the next
    of_crates: bool   # in the first column of a table that is headed `crate`


def spans(page: str) -> Iterator[Span]:
    """The backquoted texts of a page, those of its code blocks left out."""
    fenced = crates = table = False
    for number, line in enumerate(page.splitlines(), 1):
        if line.startswith("```"):
            fenced = not fenced
        if fenced or line.startswith("    "):
            continue
        cells = line.split("|")
        if line.startswith("|") and not table:
            crates = cells[1].strip() == "crate"
        table = line.startswith("|")
        found = list(SPAN.finditer(line))
        for at, span in enumerate(found):
            before = line[found[at - 1].end() if at else 0:span.start()]
            after = line[span.end():found[at + 1].start() if at + 1 < len(found) else len(line)]
            yield Span(number, span[1], before, after, table and crates and before == "| " and at == 0)


def fault_of_path(text: str, has: Declared) -> str:
    """A path from the root, from crates/, or from inside of a crate."""
    path = text[2:] if text.startswith("./") else text
    if any(STAND_IN.fullmatch(part) and not (has.root / path).exists() for part in path.split("/")):
        return ""
    places = [has.root / path, has.root / "crates" / path]
    if path.startswith(FOLDERS):
        places += [has.root / "crates" / crate / path for crate in has.crates]
    return "" if any(place.exists() for place in places) else "no such file"


def fault_of_code(text: str, has: Declared) -> str:
    """`crate::function`, `crate::Type`, `crate::module::function`, `Type::function`, `module::function`."""
    first, *rest = text.split("::")
    if first in has.kit or NUMBER_TYPE.fullmatch(first):
        return ""
    if first in has.crates:
        return "" if has.in_crate(first, rest) else f"the crate {first} has no such function, type or constant"
    found = any(has.in_crate(crate, [first] + rest) for crate in has.crates)
    return "" if found else f"no crate {first}, and no type or module that has it"


def fault_of_name(text: str, has: Declared) -> str:
    """A lone name, by what it looks like."""
    if text == text.lower():
        one_word = re.fullmatch(r"[a-z]+[0-9]*", text)
        known = has.code | has.specs | has.edits | set(has.crates) | (has.words | has.placed if one_word else has.laws)
        return "" if text in known else "no crate, function, definition, law or edit has this name"
    if text == text.upper():
        return "" if text in has.code else "no constant has this name"
    return "" if text in has.specs | has.code else "no definition or type has this name"


def fault_of(text: str, has: Declared) -> str:
    """Why the project has nothing of this name; nothing where it has, or where the text is no name of it."""
    if " " in text:  # a command: only a path in front of it is held
        text = text.split()[0]
        if "/" not in text:
            return ""
    if text in FOREIGN_WORDS or STAND_IN.fullmatch(text):
        return ""
    if "/" in text:
        return fault_of_path(text, has) if PATH.fullmatch(text) else ""
    if FILE.fullmatch(text):
        return "" if text in has.placed else "no such file"
    if CODE.fullmatch(text):
        return fault_of_code(text, has)
    member = MEMBER.fullmatch(text)
    if member:
        return "" if member[2] in has.members.get(member[1], ()) else f"no type {member[1]} has this field"
    return fault_of_name(text, has) if NAME.fullmatch(text) else ""


def fault_of_place(name: str, place: str, has: Declared) -> str:
    """Why a lone name is not declared in this file or crate."""
    there = has.declared_in(place)
    if name in there or STAND_IN.fullmatch(name) or not NAME.fullmatch(name):
        return ""
    return f"not in {place}"


def complaints(page: pathlib.PurePath, text: str, has: Declared) -> List[str]:
    """A line for each name that the project hasn't, or hasn't in the file or crate that the page says it is in."""
    lines: List[str] = []
    place, last = "", Span(0, "", "", "", False)
    for span in spans(text):
        if span.line != last.line or re.search(r"[;|.]", span.before):
            place = ""
        why = fault_of(span.text, has)
        if span.of_crates and span.text not in has.crates:
            why = "no such crate"
        if CALLED_LAW.search(span.before) and NAME.fullmatch(span.text) and span.text not in has.laws and not why:
            why = "no law has this name"
        if place and not why:
            why = fault_of_place(span.text, place, has)
        if span.line == last.line and span.before == " in " and span.text in has.files:
            wrong = fault_of_place(last.text, span.text, has)
            lines += [f"{page}:{span.line}: `{last.text}`: {wrong}"] if wrong else []
        lines += [f"{page}:{span.line}: `{span.text}`: {why}"] if why else []
        if has.declared_in(span.text):
            place = span.text if span.after.startswith(":") else ""
        last = span
    return lines
