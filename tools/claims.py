"""Each claim of a crate's specs/ has its law in the crate's proofs/: refused_exactly : RefusedExactly."""
import pathlib
import re
from typing import Dict, List, NamedTuple, Tuple

from declared import heads
from project import Project, read_text

RECORD = re.compile(r"pub record ([^\s(]+) : Type \d+ where$")
DEFINED = re.compile(r"(?:abbrev |unfoldable )?pub (\S+) : Type \d+$")
LAW = re.compile(r"pub (\S+) : (?:\S+\.)?([^\s.]+)$")
WORD = re.compile(r"[^\s(){}:;,→×]+")


class Place(NamedTuple):
    file: str
    line: int


def law_of(claim: str) -> str:
    """A claim's name in small letters, with a _ before each letter that was large but the first."""
    return re.sub(r"(?<!^)([A-Z])", r"_\1", claim).lower()


def claims_in(root: pathlib.Path, crate: str) -> Dict[str, Place]:
    """The types without parameters that are no data: data is what a definition of the same specs/ takes or answers."""
    found: Dict[str, Place] = {}
    data = set()
    for path in sorted((root / "crates" / crate / "specs").rglob("*.antt")):
        for line, head in heads(read_text(path)):
            claim = RECORD.match(head) or DEFINED.match(head)
            if claim:
                found[claim[1]] = Place(path.relative_to(root).as_posix(), line)
            else:
                data.update(WORD.findall(head.partition(" : ")[2]), WORD.findall(head.partition(" (")[2]))
    return {name: place for name, place in found.items() if name not in data}


def laws_in(root: pathlib.Path, crate: str) -> List[Tuple[str, str, Place]]:
    """The laws that prove a type by its name alone: the law, the type and the place."""
    found = []
    for path in sorted((root / "crates" / crate / "proofs").rglob("*.antt")):
        for line, head in heads(read_text(path)):
            law = LAW.match(head)
            if law:
                found.append((law[1], law[2], Place(path.relative_to(root).as_posix(), line)))
    return found


def complaints(root: pathlib.Path, project: Project) -> List[str]:
    """A line for each claim that no law proves under its own name."""
    lines = []
    for crate in project.uses:
        laws = laws_in(root, crate)
        for claim, place in claims_in(root, crate).items():
            wanted = law_of(claim)
            if any((law, proved) == (wanted, claim) for law, proved, _ in laws):
                continue
            others = [f"{law} proves it, at {at.file}:{at.line}" for law, proved, at in laws if proved == claim]
            lines.append(f"{place.file}:{place.line}: the claim {claim} has no law {wanted} in crates/{crate}/proofs/"
                         + "".join(f"; {other}" for other in others))
    return lines
