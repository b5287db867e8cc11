"""What the tests of the launcher share: running it, and the outputs that are due."""
import contextlib
import os
import pathlib
import subprocess
import sys
import tempfile
import unittest
from typing import Callable, Dict, Iterator, List, NamedTuple, Optional, Union

ROOT = pathlib.Path(__file__).resolve().parent.parent
sys.dont_write_bytecode = True
sys.path.insert(0, str(ROOT))
GLUBOTAR = ROOT / "glubotar"
GOOD = "examples/producer_consumer.trace"  # nothing is refused
WRONG = "examples/whole_case.trace"        # its last step is refused
WRONG_TEXT = (ROOT / "examples/whole_case.expected").read_bytes()
GOOD_TEXT = (ROOT / "examples/producer_consumer.expected").read_bytes()
EXAMPLES = sorted(str(path.relative_to(ROOT)) for path in (ROOT / "examples").glob("*.trace"))
NOBODY = 65534  # a user who may do nothing here

Word = Union[str, bytes, pathlib.Path]


def row(name: Word, accepted: object, refused: object, first: str) -> bytes:
    return b"\t".join([os.fsencode(name), *(str(cell).encode() for cell in (accepted, refused, first))]) + b"\n"


def good_row(name: Word = GOOD) -> bytes:
    return row(name, 10, 0, "-")


def wrong_row(name: Word = WRONG) -> bytes:
    return row(name, 2, 1, "3:14")


def miss_row(name: Word) -> bytes:
    return row(name, "-", "-", "unreadable")


def total(*numbers: int) -> bytes:
    """Traces, accepted and refused steps, unreadable traces, traces with refused steps."""
    return ("total\t" + "\t".join(map(str, numbers)) + "\n").encode()


def row_of(trace: str) -> bytes:
    """The line that is due for a trace with an expected text."""
    lines = (ROOT / trace).with_suffix(".expected").read_text().splitlines()
    refused = [line.split() for line in lines if " no " in line]
    _, accepted, count = lines[-1].split()
    return row(trace, accepted, count, f"{refused[0][0]}:{refused[0][2]}" if refused else "-")


EXAMPLE_ROWS = b"".join(map(row_of, EXAMPLES))
EXAMPLE_TOTAL = total(10, 110, 5, 0, 3)


class Ran(NamedTuple):
    status: int
    out: bytes
    err: str


class Launching(unittest.TestCase):
    """Runs the launcher in a folder of its own, and holds it to leaving nothing in the temporary one."""
    launcher: pathlib.Path = GLUBOTAR

    def setUp(self) -> None:
        folder = tempfile.TemporaryDirectory()
        self.addCleanup(folder.cleanup)
        self.work = pathlib.Path(folder.name)
        os.chmod(self.work, 0o755)
        self.scratch = self.work / "scratch"
        self.scratch.mkdir()
        self.environment: Dict[str, str] = dict(os.environ, TMPDIR=str(self.scratch))

    def words(self, *words: Word) -> List[Word]:
        return [sys.executable, "-I", "-S", "-X", "utf8", self.launcher, *words]

    def run_it(self, *words: Word, data: Optional[bytes] = b"", cwd: pathlib.Path = ROOT, **others: object) -> Ran:
        if data is not None and "stdin" not in others:
            others["input"] = data
        others.setdefault("stdout", subprocess.PIPE)
        others.setdefault("stderr", subprocess.PIPE)
        others.setdefault("env", self.environment)
        ran = subprocess.run(self.words(*words), cwd=cwd, check=False, **others)  # type: ignore[call-overload]
        self.assertEqual(os.listdir(self.scratch) if self.scratch.exists() else [], [], "it left something behind")
        return Ran(ran.returncode, ran.stdout or b"", os.fsdecode(ran.stderr or b""))

    def due(self, ran: Ran, status: int, out: bytes, *parts: str) -> None:
        """Holds a run to its status, its output, and what its errors have to hold; without parts there is none."""
        self.assertEqual((ran.status, ran.out), (status, out), ran.err)
        for part in parts:
            self.assertIn(part, ran.err)
        if not parts:
            self.assertEqual(ran.err, "")

    def file(self, name: Word, data: bytes) -> pathlib.Path:
        path = self.work / os.fsdecode(name)
        path.write_bytes(data)
        return path


@contextlib.contextmanager
def permissions() -> Iterator[None]:
    """Within it permissions apply to this process, which they don't to root."""
    if os.geteuid():
        yield
        return
    os.seteuid(NOBODY)
    try:
        yield
    finally:
        os.seteuid(0)


def limits(*limit: int) -> Callable[[], None]:
    """Sets a limit before a program starts: which one, and how much."""
    def set_limit() -> None:
        import resource
        resource.setrlimit(limit[0], (limit[1], limit[1]))
    return set_limit
