"""The crates of crates.txt by layer, and a file that is read, or written whole or not at all."""
import os
import pathlib
import tempfile
from typing import Dict, List, NamedTuple, Set


class Wrong(Exception):
    """A sentence for whoever called the tool."""


class Layer(NamedTuple):
    title: str
    crates: List[str]


class Project(NamedTuple):
    layers: List[Layer]
    uses: Dict[str, List[str]]  # a crate and the crates that its line names
    kit: Set[str]               # crates that have no line of their own: the kit's


def read_text(path: pathlib.Path) -> str:
    try:
        return path.read_text(encoding="utf-8")
    except OSError as error:
        raise Wrong(f"{path} can't be read: {error.strerror}.") from error
    except UnicodeDecodeError as error:
        raise Wrong(f"{path} is not UTF-8 text.") from error


def write_whole(path: pathlib.Path, text: str) -> None:
    """Writes the file beside its place and then puts it there, with the rights that the old one had."""
    beside = None
    try:
        rights = path.stat().st_mode & 0o7777
        handle, name = tempfile.mkstemp(prefix="." + path.name, dir=str(path.parent))
        beside = pathlib.Path(name)
        with os.fdopen(handle, "w", encoding="utf-8") as target:
            target.write(text)
            target.flush()
            os.fsync(target.fileno())
        beside.chmod(rights)
        os.replace(beside, path)
        beside = None
    except OSError as error:
        raise Wrong(f"{path} is left as it was: {error.strerror}.") from error
    finally:
        if beside:
            beside.unlink()


def crates_of(root: pathlib.Path) -> Project:
    """crates.txt: a comment line is the title of a layer, and every other line is `crate: the crates it uses`, with the word
    `staticlib` after the crate's name where it is a static library."""
    layers: List[Layer] = []
    uses: Dict[str, List[str]] = {}
    for number, line in enumerate(read_text(root / "crates.txt").splitlines(), 1):
        line = line.strip()
        if not line:
            continue
        if line.startswith("#"):
            layers.append(Layer(line.lstrip("# "), []))
            continue
        before, colon, rest = line.partition(":")
        name, *kind = before.split() or [""]
        if not colon or not name or kind not in ([], ["staticlib"]) or name in uses:
            raise Wrong(f"crates.txt:{number}: a line is `crate: the crates it uses` or `crate staticlib: ..`, and a crate has one.")
        if not layers:
            layers.append(Layer("crates", []))
        layers[-1].crates.append(name)
        uses[name] = rest.split()
    named = {used for line_uses in uses.values() for used in line_uses}
    return Project([layer for layer in layers if layer.crates], uses, named - set(uses))


def below(project: Project) -> Dict[str, Set[str]]:
    """For each crate all crates below it, those of the kit left out."""
    reached: Dict[str, Set[str]] = {}

    def reach(crate: str, path: List[str]) -> Set[str]:
        if crate in path:
            raise Wrong(f"crates.txt: {crate} is below itself.")
        if crate not in reached:
            found: Set[str] = set()
            for used in project.uses[crate]:
                if used in project.uses:
                    found |= {used} | reach(used, path + [crate])
            reached[crate] = found
        return reached[crate]

    for crate in project.uses:
        reach(crate, [])
    return reached
