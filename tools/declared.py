"""What the crates declare: code in src/, definitions in specs/, laws in proofs/, edits in must-fail/."""
import pathlib
import re
from typing import Dict, Iterator, List, NamedTuple, Set, Tuple

from project import Project, read_text

# src/*.rt
FUNCTION = re.compile(r'( *)(?:pub(?:\(\w+\))? )?(?:extern "C" )?fn (\w+)')
TYPE = re.compile(r"(?:pub(?:\(\w+\))? )?(?:struct|enum|impl) (\w+)")
THING = re.compile(r"(?:pub(?:\(\w+\))? )?(?:const|mod) (\w+)")
MEMBER = re.compile(r"    (?:pub )?(\w+)(?::|,|\(| \{)")
INNER = re.compile(r"        (\w+): ")
# specs/*.antt and proofs/**.antt
HEAD = re.compile(r"(?:(?:abbrev|unfoldable|pub|mod|record|data) )*([^\s(]+) ?(.*)")
HEAD_END = re.compile(r" :( |$)| where$|^mod ")
NO_HEAD = ("--", "use ", "open ", " ", "}", ")")
FIELD = re.compile(r"  (?:pub )?([^\s(]+) :")
WORD = re.compile(r"^pub ([a-z]+[0-9]*) :(?! goal\.)", re.MULTILINE)  # a law of one word
# a law may stand under a `where`; an answer to a function's goal is none
STATED = re.compile(r"^ *(?:(?:abbrev|unfoldable|pub) )*([^\s(]+) :(?: (?!goal\.)|$)", re.MULTILINE)


class File(NamedTuple):
    """The names of one file, and for each type its fields, variants and methods."""
    names: Set[str]
    members: Dict[str, Set[str]]

    def every(self) -> Set[str]:
        return self.names.union(*self.members.values())


class Crate(NamedTuple):
    code: Dict[str, File]    # by the path from crates/
    specs: Dict[str, File]
    proofs: Dict[str, File]
    words: Set[str]          # the laws of one word
    edits: Set[str]


def in_code(text: str) -> File:
    """The names of a file of code."""
    names: Set[str] = set()
    members: Dict[str, Set[str]] = {}
    owner = ""
    for line in text.splitlines():
        function, kind, thing = FUNCTION.match(line), TYPE.match(line), THING.match(line)
        if line.startswith("}"):
            owner = ""
        elif function:
            (members[owner] if function[1] and owner else names).add(function[2])
        elif kind:
            owner = kind[1]
            names.add(owner)
            members.setdefault(owner, set())
        elif thing:
            names.add(thing[1])
        elif owner:
            member = MEMBER.match(line) or INNER.match(line)
            if member:
                members[owner].add(member[1])
    return File(names, members)


def heads(text: str) -> Iterator[Tuple[int, str]]:
    """The declarations of a file of definitions or proofs, up to where the body begins, each with its line."""
    head: List[str] = []
    start = 0
    for number, line in enumerate(text.splitlines(), 1):
        if head and line.startswith(" ") and not head[-1].endswith(" where"):
            head.append(line.strip())
            continue
        if head:
            yield start, " ".join(head)
        opens = HEAD_END.search(line.partition(" = ")[0]) and not line.startswith(NO_HEAD)
        head, start = ([line.strip()], number) if opens else ([], 0)
    if head:
        yield start, " ".join(head)


def in_specs(text: str) -> File:
    """The names of a file of definitions; the fields of a record and the cases of a `data` are its members."""
    names = {HEAD.match(head)[1] for _, head in heads(text)}  # type: ignore[index]
    members: Dict[str, Set[str]] = {}
    owner = ""
    for line in text.splitlines():
        field = FIELD.match(line)
        if field and owner:
            members[owner].add(field[1])
        elif line and not line.startswith(" "):
            holds = re.match(r"pub (?:record|data) ([^\s(]+).* where$", line)
            owner = holds[1] if holds else ""
            members.setdefault(owner, set())
    return File(names, {name: found for name, found in members.items() if name})


def crate_at(crates: pathlib.Path, name: str) -> Crate:
    def every(folder: str, pattern: str) -> Iterator[Tuple[str, str]]:
        for path in sorted((crates / name / folder).rglob(pattern)):
            yield path.relative_to(crates).as_posix(), read_text(path)

    proofs = dict(every("proofs", "*.antt"))
    return Crate({path: in_code(text) for path, text in every("src", "*.rt")},
                 {path: in_specs(text) for path, text in every("specs", "*.antt")},
                 {path: File(set(STATED.findall(text)), {}) for path, text in proofs.items()},
                 {word for text in proofs.values() for word in WORD.findall(text)},
                 {path.stem for path in (crates / name / "must-fail").glob("*.edit")})


class Declared:
    """Everything that the project declares, to be asked by name."""

    def __init__(self, root: pathlib.Path, project: Project) -> None:
        self.root = root
        self.kit = project.kit
        self.crates = {name: crate_at(root / "crates", name) for name in project.uses}
        self.files: Dict[str, File] = {}
        self.code: Set[str] = set()
        self.specs: Set[str] = set()
        self.laws: Set[str] = set()
        self.words: Set[str] = set()
        self.edits: Set[str] = set()
        self.members: Dict[str, Set[str]] = {}
        for crate in self.crates.values():
            for files, names in ((crate.code, self.code), (crate.specs, self.specs), (crate.proofs, self.laws)):
                self.files.update(files)
                for file in files.values():
                    names |= file.every()
                    for owner, found in file.members.items():
                        self.members.setdefault(owner, set()).update(found)
            self.words |= crate.words
            self.edits |= crate.edits
        folders = [root, root / "docs"] + [root / "crates" / crate for crate in self.crates]
        self.placed = {path.name for folder in folders if folder.is_dir() for path in folder.iterdir()}
        self.placed |= {path.rpartition("/")[2] for path in self.files}

    def declared_in(self, place: str) -> Set[str]:
        """The names of a file, by its path from crates/, or of a crate with its edits."""
        if place in self.files:
            return self.files[place].every()
        crate = self.crates.get(place)
        if not crate:
            return set()
        files = [*crate.code.values(), *crate.specs.values(), *crate.proofs.values()]
        return crate.edits.union(*(file.every() for file in files))

    def in_crate(self, crate: str, parts: List[str]) -> bool:
        """A function, type or constant of a crate's code, after the modules or the type that it stands in."""
        files = self.crates[crate].code
        owner, name = (parts[-2] if len(parts) > 1 else ""), parts[-1]
        for path, file in files.items():
            module = pathlib.PurePosixPath(path).stem
            if name in file.names and owner in ("", module) or name in file.members.get(owner, ()):
                return True
        return False
