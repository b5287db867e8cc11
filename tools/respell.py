#!/usr/bin/env python3
"""Brings the project's own definitions and lemmas to the spelling of the kit that the project moved to: words in snake case.

usage: tools/respell.py [ROOT]

It was run once, on the tree that the kit's script for older repositories had left, and is kept so that the move can be
made again and compared. Types, modules and facts keep their capitals. A definition keeps its words; a lemma that would
get the name of another that is used beside it gets one of its own. Code, strings and outputs keep their names.
"""
import argparse
import collections
import pathlib
import re
from typing import Dict, Iterator, List, Set, Tuple

SIGNATURE = re.compile(r"^\s*(?:(?:pub|abbrev|unfoldable)\s+)*([^\s(){}\[\],;.:=]+) :(?: |$)(.*)")
TYPE = re.compile(r"^\s*(?:pub )?(?:record|data) ([^\s(){}]+)")
WORD = re.compile(r"[^\s(){}\[\],;.]+")
CLAUSE = re.compile(r"\b(?:requires|ensures)\b\*?(?: \w+)? \{|\bghost \w+: \{")
COMMENT = re.compile(r"\s*--")

# laws of a digit of a union, a meet and a difference, beside the library's operations of these names
GIVEN = {"bit-and": "bit_of_and", "bit-or": "bit_of_or", "bit-xor": "bit_of_xor"}


def spelled(name: str) -> str:
    """The name in snake case; one that begins with a capital stays."""
    if name[0].isupper():
        return name
    split = re.sub(r"(?<=[a-z0-9])([A-Z])", r"_\1", name)
    return (split.lower() if split != name else name).replace("-", "_")


def declared(text: str) -> Iterator[str]:
    """The names that a file of definitions or proofs declares, but for answers to goals and the proofs of functions."""
    for line in text.splitlines():
        if COMMENT.match(line):
            continue
        kind, stated = TYPE.match(line), SIGNATURE.match(line)
        if kind:
            yield kind[1]
        if not stated or stated[2].startswith("tie.") or stated[1].endswith("-spec") and "statement" in stated[2]:
            continue
        yield stated[1]


def respelled(text: str, names: Dict[str, str]) -> str:
    return WORD.sub(lambda found: names.get(found[0], found[0]), text)


def in_comment(text: str, names: Dict[str, str]) -> str:
    """Names in backquotes, at the head of a list, and those with a capital in the middle."""
    text = re.sub(r"`[^`]*`", lambda found: "`" + respelled(found[0][1:-1], names) + "`", text)
    text = re.sub(r"^(\s*(?:--|//) {5})(\S+)(?=  )", lambda found: found[1] + names.get(found[2], found[2]), text)
    return re.sub(r"(?<!\S)[a-z]+[A-Z]\w*(?=[\s:,.]|$)", lambda found: names.get(found[0], found[0]), text)


def aliases(text: str) -> Dict[str, str]:
    """The names that a file gives to what it imports."""
    given = re.findall(r"[{ ]\S+ as ([a-z][\w-]*)(?=[,}])", "".join(re.findall(r"(?m)^\s*(?:ghost |pub )?use [^;\n]*", text)))
    return {name: spelled(name) for name in given}


def in_antt(text: str, names: Dict[str, str]) -> str:
    names = {**aliases(text), **names}
    return "\n".join((in_comment if COMMENT.match(line) else respelled)(line, names) for line in text.split("\n"))


def clauses(text: str) -> Iterator[Tuple[int, int]]:
    """Where the imports and the clauses of a source file stand."""
    for found in re.finditer(r"^\s*ghost use [^;]*;", text, re.MULTILINE):
        yield found.start(), found.end()
    for found in CLAUSE.finditer(text):
        depth, at = 1, found.end()
        while depth:
            depth += {"{": 1, "}": -1}.get(text[at], 0)
            at += 1
        yield found.end(), at - 1


def in_source(text: str, names: Dict[str, str]) -> str:
    names = {**aliases(text), **names}

    def outside(part: str) -> str:
        return re.sub(r"//.*", lambda found: in_comment(found[0], names), part)

    out: List[str] = []
    last = 0
    for start, end in sorted(clauses(text)):
        out += [outside(text[last:start]), respelled(text[start:end], names)]
        last = end
    return "".join(out) + outside(text[last:])


def in_edit(text: str, names: Dict[str, str]) -> str:
    return "\n".join(respelled(line, names) if line.startswith(("old: ", "new: ")) else line for line in text.split("\n"))


def in_page(text: str, names: Dict[str, str]) -> str:
    """The names in backquotes, those too that were in snake case before."""
    now = set(names.values())

    def named(word: str) -> str:
        return names.get(word) or (spelled(word) if spelled(word) in now else word)

    return re.sub(r"`[^`\n]+`", lambda found: WORD.sub(lambda word: named(word[0]), found[0][1:-1]).join("``"), text)


def names_of(files: Dict[pathlib.Path, str]) -> Dict[str, str]:
    """The new name of each own name that changes."""
    homes: Dict[str, Set[str]] = collections.defaultdict(set)
    words = {path: set(WORD.findall(re.sub(r"(?m)^\s*--.*", "", text))) for path, text in files.items()}
    for path, text in files.items():
        for name in declared(text):
            homes[name].add("specs" if "specs" in path.parts else "proofs")
    names = {name: spelled(name) for name in homes}
    for found in words.values():
        together: Dict[str, List[str]] = collections.defaultdict(list)
        for word in found & set(homes):
            together[names[word].replace("_lem", "")].append(word)
        for new, old in together.items():
            # the definition, or else the one that was spelled so, keeps the name
            first, *others = sorted(old, key=lambda name: ("specs" not in homes[name], name != new, "-" in name, name))
            for name in others:
                names[name] = new + "_lem"
    names.update({name: new for name, new in GIVEN.items() if name in homes})
    return {name: new for name, new in names.items() if new != name}


def main() -> None:
    parser = argparse.ArgumentParser(description=__doc__.splitlines()[0])
    parser.add_argument("root", nargs="?", default=".", type=pathlib.Path)
    root = parser.parse_args().root
    crates = root / "crates"
    antt = [path for folder in ("specs", "proofs") for path in sorted(crates.glob(f"*/{folder}/**/*.antt"))]
    texts = {path: path.read_text(encoding="utf-8") for path in antt}
    names = names_of(texts)
    everything = {**{name: name for text in texts.values() for name in declared(text)}, **names}
    work = [(antt, in_antt), (sorted(crates.glob("*/src/**/*.rt")), in_source),
            (sorted(crates.glob("*/must-fail/*.edit")), in_edit),
            ([root / "README.md", *sorted((root / "docs").glob("**/*.md"))], lambda text, _: in_page(text, everything))]
    for paths, turned in work:
        for path in paths:
            old = path.read_text(encoding="utf-8")
            new = turned(old, names)
            if new != old:
                path.write_text(new, encoding="utf-8")
    for name, new in sorted(names.items()):
        print(f"{name} {new}")


if __name__ == "__main__":
    main()
