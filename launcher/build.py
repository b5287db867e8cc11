"""Building the checker: once at a time, proved first, and with an eye on who waits."""
from __future__ import annotations

import contextlib
import fcntl
import os
import re
import shutil
import subprocess
import tempfile
from collections.abc import Iterator

from launcher.guarded import run_guarded
from launcher.project import EMULATOR, PROGRAM, Project
from launcher.streams import Failure, file_of, progress, read_file, reason, say, write_all, write_whole

PROVED = re.compile(rb"logic=proved ")  # ends the check of a crate
LOG_END = 20  # lines of a failed build's log that are shown


@contextlib.contextmanager
def lock(project: Project) -> Iterator[None]:
    """The right to build, which ends with this process and with the build that it started."""
    try:
        os.makedirs(project.target, exist_ok=True)
        descriptor = os.open(os.path.join(project.target, "building.lock"), os.O_RDWR | os.O_CREAT, 0o666)
    except OSError as error:
        raise Failure(f"nothing can be built in {project.root}: {reason(error)}") from None
    try:
        take(descriptor)
        yield
    finally:
        os.close(descriptor)


def take(descriptor: int) -> None:
    try:
        fcntl.flock(descriptor, fcntl.LOCK_EX | fcntl.LOCK_NB)
    except BlockingIOError:
        say("another run builds the checker; waiting")
        fcntl.flock(descriptor, fcntl.LOCK_EX)
    except OSError as error:
        raise Failure(f"the lock for a build can't be taken: {reason(error)}") from None


def build_once(project: Project) -> None:
    """Builds the checker, unless another run has done so meanwhile."""
    with lock(project):
        if not project.is_built():
            build(project)


def build(project: Project) -> None:
    try:
        before = project.content(project.sources())
    except OSError as error:
        raise Failure(f"a source can't be read: {file_of(error, project.root)}: {reason(error)}") from None
    say(f"building the checker; it is proved first, which takes up to ten minutes (log: {log_of(project)})")
    run_rt(project, "run", "glubotar")  # which runs it too, once, without arguments and on an empty input
    try:
        collect(project)
        places = project.places()
        times, content = project.times(places), project.content(places)
        if project.content(project.sources()) != before:  # read last, so that nothing else is in the record
            raise Failure("the sources changed while the checker was built; start again")
        project.write_record(content, times, places)
    except OSError as error:
        raise Failure(f"the checker can't be kept in {project.checker}: {reason(error)}") from None


def collect(project: Project) -> None:
    """Lays the program and what it is started by into the checker's folder."""
    built = built_by(project, "glubotar", "glubotar")
    if not os.path.isfile(built):
        raise Failure(f"the build left no {built}; remove {os.path.dirname(built)} and try again")
    tools = os.path.join(kit(), "toolchain")
    libraries = os.path.join(tools, "lib")
    files = {PROGRAM: built, EMULATOR: os.path.join(tools, "bin", EMULATOR)}
    files.update({name: os.path.join(libraries, name) for name in os.listdir(libraries) if ".so" in name})
    shutil.rmtree(project.checker, ignore_errors=True)
    os.makedirs(project.checker)
    for name, source in files.items():
        if os.path.exists(source):
            write_whole(os.fsencode(os.path.join(project.checker, name)), read_file(os.fsencode(source)), 0o755)


def built_by(project: Project, crate: str, name: str) -> str:
    """Where rt leaves what it built of a crate."""
    return os.path.join(project.root, "crates", crate, "out", name)


def log_of(project: Project) -> str:
    return os.path.join(project.target, "build.log")


def run_rt(project: Project, verb: str, crate: str) -> None:
    """Runs the kit's rt in the folder of a crate. Its output is the log, and each crate that it proves is counted."""
    rt, log_name = find_rt(), log_of(project)
    count, of = 0, len(crates(project, crate))
    ending: list[bytes] = []
    try:
        scratch = tempfile.mkdtemp(prefix="glubotar.")
    except OSError as error:
        raise Failure(f"no temporary folder can be made: {error.strerror}") from None
    try:
        with open(log_name, "wb", buffering=0) as log:
            run = run_guarded([rt, verb], os.path.join(project.root, "crates", crate), dict(os.environ, TMPDIR=scratch))
            with contextlib.closing(run.lines()) as lines:  # at its end the build is gone, whatever happened
                for line in lines:
                    write_all(log.fileno(), line)
                    ending = (ending + [line])[-LOG_END:]
                    count += bool(PROVED.match(line))
                    progress.show(f"{min(count, of)} of {of} crates")
    except OSError as error:
        raise Failure(f"the build can't go on, with its log {log_name}: {reason(error)}") from None
    finally:
        progress.erase()
        shutil.rmtree(scratch, ignore_errors=True)
    if run.status != 0:
        shown = "".join("\n  " + os.fsdecode(line.rstrip(b"\n")) for line in ending)
        raise Failure(f"the build failed; its log is {log_name}, which ends so:{shown}")


def crates(project: Project, name: str) -> list[str]:
    """A crate and all that it is built on, by crates.txt."""
    with open(os.path.join(project.root, "crates.txt"), encoding="utf-8", errors="replace") as lines:
        parts = [line.partition(":") for line in lines]
    needs = {(before.split() or [""])[0]: after.split() for before, _, after in parts}  # a word may stand after the name
    found, left = [], [name]
    while left:
        crate = left.pop()
        if crate in needs and crate not in found:
            found.append(crate)
            left += needs[crate]
    return found


def find_rt() -> str:
    rt = shutil.which("rt")
    if rt is None:
        raise Failure("a build needs rt of the Rattle kit, and that is not on the PATH")
    return rt


def kit() -> str:
    """The Rattle kit's folder, which rt tells by the place of its guide."""
    told = subprocess.run([find_rt(), "doc"], stdout=subprocess.PIPE, check=False)
    if told.returncode != 0:
        raise Failure("the Rattle kit does not work here: rt doc failed")
    return os.path.dirname(os.fsdecode(told.stdout).strip())
