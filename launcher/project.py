"""The checker's folder: where it stands, how it is started, and whether it was built from the sources as they are."""
from __future__ import annotations

import os

from launcher.streams import Failure, read_file, write_whole

PROGRAM, LOADER, EMULATOR = "program", "ld-linux-x86-64.so.2", "qemu-x86_64"
NO_SOURCES = {"must-fail", "out"}  # of a crate's folder: what must fail, and what rt builds


class Project:
    """The project's folder, or the folder of an installed copy, which holds a checker and no sources."""

    def __init__(self, root: str) -> None:
        self.root = root
        self.installed = not os.path.exists(os.path.join(root, "crates.txt"))
        self.target = os.path.join(root, "target")
        checkers = os.path.join(root if self.installed else self.target, "checker")
        self.checker = os.path.join(checkers, os.uname().machine)  # machines of several kinds may share the folder
        self.record = self.checker + ".sources"

    def command(self) -> list[str]:
        """The words that start the checker, which is built first where it has to be: its own loader and, where the processor
        needs one, an emulator."""
        if self.installed and not os.path.isdir(self.checker):
            raise Failure(f"this copy has no checker for a machine of this kind: {self.checker} is missing")
        if not self.installed and not self.is_built():
            from launcher.build import build_once
            build_once(self)
        emulator = os.path.join(self.checker, EMULATOR)
        words = [emulator] if os.path.exists(emulator) else []
        return words + [os.path.join(self.checker, LOADER), "--library-path", self.checker,
                        os.path.join(self.checker, PROGRAM)]

    # ---- what it was built from

    def sources(self) -> list[str]:
        """The sources and their folders, from the root, in order."""
        found = ["crates.txt"]
        for folder, folders, files in os.walk(os.path.join(self.root, "crates")):
            place = os.path.relpath(folder, self.root)
            left = NO_SOURCES if place.count(os.sep) == 1 else set()
            folders[:] = sorted(name for name in folders if name not in left)
            found += [place] + [os.path.join(place, name) for name in sorted(files)]
        return found

    def places(self) -> list[str]:
        """The sources, and what was built of them."""
        folder = os.path.relpath(self.checker, self.root)
        return self.sources() + [folder] + [os.path.join(folder, name) for name in sorted(os.listdir(self.checker))]

    def times(self, places: list[str]) -> str:
        """Changes with every place that is written, made or removed: a folder's time tells of its files."""
        before = self.root + os.sep
        stats = [os.lstat(before + place) for place in places]
        return " ".join([f"{stat.st_size} {stat.st_mtime_ns} {stat.st_ctime_ns} {stat.st_ino}" for stat in stats])

    def content(self, places: list[str]) -> str:
        """Changes with the name or the bytes of every file."""
        import hashlib
        whole = hashlib.sha256()
        for place in places:
            path = os.path.join(self.root, place)
            if os.path.isfile(path):
                data = read_file(os.fsencode(path))
                whole.update(b"%s\n%d\n" % (os.fsencode(place), len(data)) + data)
        return whole.hexdigest()

    def is_built(self) -> bool:
        """Whether the checker is there and was built from the sources as they are: by their times or else by their bytes."""
        recorded = self.read_record()
        if recorded is None:
            return False
        content, times, places = recorded
        try:
            if places and self.times(places) == times:
                return True
        except OSError:
            pass  # something is gone or has moved
        try:
            places = self.places()
            times = self.times(places)  # before the bytes are read: what is written after that is seen the next time
            if self.content(places) != content:
                return False
        except OSError:
            return False
        try:
            self.write_record(content, times, places)
        except OSError:
            pass  # a read-only folder: the bytes are compared each time
        return True

    def read_record(self) -> tuple[str, str, list[str]] | None:
        try:
            content, times, *places = os.fsdecode(read_file(os.fsencode(self.record))).split("\n")
        except (OSError, ValueError):
            return None
        return content, times, places

    def write_record(self, content: str, times: str, places: list[str]) -> None:
        write_whole(os.fsencode(self.record), os.fsencode("\n".join([content, times, *places])))
