"""Tests of `glubotar show`, `asm`, `explain` and `install`, as commands."""
import os
import pathlib
import re
import resource
import shutil
import subprocess
import sys
import threading
import unittest

from launching import (EXAMPLE_ROWS, EXAMPLE_TOTAL, EXAMPLES, GOOD, ROOT, WRONG, WRONG_TEXT, Launching,
                       limits)

TEXT = b"warps 1\nw0: exit\nw0: exit\n"
NUMBERED = b"warps 1\nw0: exit  # 1\nw0: exit  # 2\n"
BYTES = b"\1\1\0\1\0"


class ShowAndAsm(Launching):
    def setUp(self):
        super().setUp()
        self.text = self.file("kernel.txt", TEXT)
        self.trace = self.file("kernel.trace", BYTES)
        self.out = self.work / "out"

    def good(self, *words, data=b""):
        ran = self.run_it(*words, data=data)
        self.assertEqual((ran.status, ran.err), (0, ""), words)
        return ran.out

    def test_options_in_any_place(self):
        for words in (("show", "-n", self.trace), ("show", self.trace, "-n")):
            self.assertEqual(self.good(*words), NUMBERED)
        self.assertEqual(self.run_it("asm", self.text, "-o", "=x", cwd=self.work).status, 0)
        self.assertEqual((self.work / "=x").read_bytes(), BYTES)
        for words in (("-o", self.out, self.text), (self.text, "-o", self.out), (f"-o{self.out}", "--", self.text)):
            self.out.unlink(missing_ok=True)
            self.assertEqual(self.good("asm", *words), b"")
            self.assertEqual(self.out.read_bytes(), BYTES)
        self.assertEqual(self.good("show", "-n", "-o", self.out, self.trace), b"")
        self.assertEqual(self.out.read_bytes(), NUMBERED)

    def test_standard_input(self):
        for words in ((), ("-",), ("-o", "-"), ("-o", "-", "-")):
            self.assertEqual(self.good("asm", *words, data=TEXT), BYTES)
        self.assertEqual(self.good("show", "-n", data=BYTES), NUMBERED)

    def test_every_kept_text(self):
        for text in sorted([*ROOT.glob("examples/*.txt"), *ROOT.glob("tests/traces/*.txt")]):
            self.assertEqual(self.good("asm", text), text.with_suffix("").read_bytes())

    def test_bad_use(self):
        for words in (("show", "-x", self.trace), ("asm", self.text, self.text), ("asm", self.text, "-o"), ("show", "-n", "-n", "a", "b"),
                      ("asm", "-n", self.text), ("show", "--all", self.trace)):
            ran = self.run_it(*words)
            self.assertEqual((ran.status, ran.out), (2, b""), words)
            self.assertRegex(ran.err, r"\Aglubotar: .*\n\Z")
        self.due(self.run_it("asm", "no/such/file"), 2, b"", "glubotar: no/such/file can't be read: no such file\n")
        self.due(self.run_it("show", "examples"), 2, b"", "glubotar: examples can't be read: is a folder\n")

    def test_one_sentence_each(self):
        for data, part in ((b"", "no statement"), (b"# nothing\n", "no statement"), (b"\xef\xbb\xbfwarps 1\n", "byte-order mark"),
                           ("warps 1\n".encode("utf-16"), "byte-order mark"), (BYTES, "looks like a trace"), (b"warps 1\n\0\n", "no text"),
                           (b"warps 40\nw0: exit\n", "A block has 1 to 32 warps, not 40"), (b"warps 1\n" + b"w0: exit\n" * 40000, "80,001 bytes")):
            with self.subTest(data=data[:20]):
                ran = self.run_it("asm", "-o", self.out, data=data)
                self.due(ran, 2, b"", part)
                self.assertRegex(ran.err, r"\Aglubotar: -(:\d+)?: [^\n]*\.\n\Z")
                self.assertFalse(self.out.exists())

    def test_every_bad_line_is_named(self):
        ran = self.run_it("asm", data=b"warps 1\nw0: a\nw0: exit\nw0: b\n")
        self.due(ran, 2, b"", "glubotar: -:2: There is no step `a`.\n", "glubotar: -:4: There is no step `b`.\n")

    def test_written_whole_or_not_at_all(self):
        self.out.write_bytes(b"before")
        os.chmod(self.out, 0o640)
        full = limits(resource.RLIMIT_FSIZE, 3)
        ran = self.run_it("asm", self.text, "-o", self.out, preexec_fn=full)
        self.due(ran, 2, b"", f"glubotar: {self.out} can't be written: file too large\n")
        self.assertEqual(self.out.read_bytes(), b"before")
        self.assertEqual(sorted(os.listdir(self.work)), ["kernel.trace", "kernel.txt", "out", "scratch"])
        self.assertEqual(self.run_it("asm", "-o", self.out, data=b"warps 0\n").status, 2)
        self.assertEqual(self.out.read_bytes(), b"before")
        link = self.work / "link"
        link.symlink_to("out")
        self.good("asm", self.text, "-o", link)
        self.assertEqual((self.out.read_bytes(), self.out.stat().st_mode & 0o777, link.is_symlink()), (BYTES, 0o640, True))
        self.due(self.run_it("asm", self.text, "-o", self.work / "no" / "out"), 2, b"", "can't be written: no such file")
        self.due(self.run_it("asm", self.text, "-o", self.work), 2, b"", "can't be written: is a folder")
        self.due(self.run_it("asm", self.text, "-o", f"{self.work}/new/"), 2, b"", "can't be written: is a folder")
        os.chmod(self.out, 0o666)
        long = self.work / ("n" * 255)
        for out in (self.out, long):
            self.good("asm", self.text, "-o", out)
        self.assertEqual((long.read_bytes(), self.out.stat().st_mode & 0o777), (BYTES, 0o666))
        mask = os.umask(0)
        os.umask(mask)
        self.assertEqual(long.stat().st_mode & 0o777, 0o666 & ~mask)

    def test_standard_output_by_its_name_is_shared(self):
        with open(self.out, "wb", buffering=0) as shared:
            shared.write(b"before")
            self.run_it("asm", self.text, "-o", "/dev/stdout", stdout=shared)
            shared.write(b"after")
        self.assertEqual(self.out.read_bytes(), b"before" + BYTES + b"after")

    def test_a_pipe_or_a_device_is_written_to(self):
        self.assertEqual(self.good("asm", self.text, "-o", "/dev/stdout"), BYTES)
        self.good("asm", self.text, "-o", os.devnull)
        self.assertTrue(pathlib.Path(os.devnull).is_char_device())
        os.mkfifo(self.out)
        read = []
        reader = threading.Thread(target=lambda: read.append(self.out.read_bytes()))
        reader.start()
        self.good("asm", self.text, "-o", self.out)
        reader.join()
        self.assertEqual(read, [BYTES])


class Explain(Launching):
    def test_a_refused_step(self):
        ran = self.run_it("explain", WRONG)
        self.assertEqual(ran.status, 1)
        text = ran.out.decode()
        self.assertTrue(text.startswith(f"{WRONG}: 2 warps, 3 steps: 2 accepted, 1 refused\nstep 3  w0: mbarrier.init [0], 0\n"))
        self.assertIn("refused (14) because its count is wrong", text)
        self.assertNotIn("step 2", text)
        self.assertIn(f"glubotar: refused: {WRONG} 3:14\n", ran.err)

    def test_all_steps(self):
        ran = self.run_it("explain", "--all", data=(ROOT / WRONG).read_bytes())
        self.assertEqual(ran.status, 1)
        self.assertIn("step 2  w1: barrier.sync 3\n    accepted: completes barrier 3; releases warps 0, 1\n", ran.out.decode())

    def test_several_and_their_status(self):
        ran = self.run_it("explain", "examples")
        self.assertEqual((ran.status, len(re.findall(rb"^examples/\S+: \d+ warps?,", ran.out, re.M))), (1, len(EXAMPLES)))
        self.assertEqual(self.run_it("explain", GOOD).status, 0)
        ran = self.run_it("explain", "missing", GOOD)
        self.assertEqual(ran.status, 2)
        self.assertIn("glubotar: unreadable: missing: no such file\n", ran.err)
        self.assertTrue(ran.out.startswith(b"missing: unreadable: no such file\n" + GOOD.encode()))

    def test_a_name_on_one_line(self):
        self.file("two\nlines\x1b", (ROOT / GOOD).read_bytes())
        self.assertTrue(self.run_it("explain", "two\nlines\x1b", cwd=self.work).out.startswith(b"two\\nlines\\x1b: "))

    def test_whole_traces(self):
        ran = self.run_it("explain", data=b"\1" * 100000)
        self.assertEqual((ran.status, ran.out.splitlines()[0]), (1, b"-: more than 65,536 bytes, 1 warp; refused as a whole, no step is read"))
        ran = self.run_it("explain")
        self.assertEqual((ran.status, ran.out.splitlines()[0]), (1, b"-: 0 bytes; refused as a whole, no step is read"))


class Install(Launching):
    def test_a_copy_that_stands_alone(self):
        prefix = self.work / "prefix"
        old = prefix / "lib/glubotar/launcher/old.py"  # of a copy that was there before
        old.parent.mkdir(parents=True)
        old.write_text("")
        self.due(self.run_it("install", "--prefix", prefix, preexec_fn=lambda: os.umask(0o077)), 0, b"")
        self.assertFalse(old.exists())
        self.assertEqual(sorted(os.listdir(prefix / "bin")), ["glubotar"])
        for path in prefix.rglob("*"):
            self.assertEqual(path.stat().st_mode & 0o055, 0o055 if path.is_dir() or path.stat().st_mode & 0o100 else 0o044, path)
        moved = self.work / "moved"
        prefix.rename(moved)
        self.assertEqual(sorted(os.listdir(moved / "lib")), ["glubotar", "libglubotar_c.a", "pkgconfig"])
        folder = os.path.dirname(os.path.realpath(sys.executable))
        alone = {"PATH": f"{folder}:/usr/bin:/bin", "HOME": "/nowhere"}
        self.assertIsNone(shutil.which("rt", path=alone["PATH"]))

        def run(*words, **others):
            return subprocess.run([moved / "bin/glubotar", *words], capture_output=True, check=False, env=alone, **others)

        text = (ROOT / "glubotar").read_text()
        self.assertEqual((moved / "bin/glubotar").read_text(), text)
        ran = run(*EXAMPLES, cwd=ROOT)
        self.assertEqual((ran.returncode, ran.stdout), (1, EXAMPLE_ROWS + EXAMPLE_TOTAL))
        shutil.copy(ROOT / WRONG, self.work / "w.trace")
        self.assertEqual(run("w.trace", cwd=self.work).stdout, WRONG_TEXT)
        self.assertIn(b"refused (14) because", run("explain", "w.trace", cwd=self.work).stdout)
        self.assertEqual(run("show", "w.trace", cwd=self.work).stdout.splitlines()[0], b"warps 2")
        self.assertIn(b"installed copy", run("install", "--prefix", self.work / "again").stderr)
        self.library(moved, alone)

    def library(self, moved, environment):
        """What a C program is compiled with, as pkg-config tells it."""
        if shutil.which("pkg-config", path=environment["PATH"]):
            found = subprocess.run(["pkg-config", "--cflags", "--libs", "glubotar"], capture_output=True, check=True,
                                   env=dict(environment, PKG_CONFIG_PATH=str(moved / "lib/pkgconfig"))).stdout.decode().split()
            places = [os.path.realpath(word[2:]) for word in found if word[:2] in ("-I", "-L")]
            self.assertEqual(places, [str((moved / "include").resolve()), str((moved / "lib").resolve())])
            self.assertIn("-lglubotar_c", found)
        self.assertEqual((moved / "include/glubotar.h").read_bytes(), (ROOT / "include/glubotar.h").read_bytes())
        self.assertGreater((moved / "lib/libglubotar_c.a").stat().st_size, 1000)

    def test_bad_use(self):
        for words in ((), ("--prefix",), ("here",), ("--prefix", "a", "b")):
            ran = self.run_it("install", *words, cwd=self.work)
            self.assertEqual((ran.status, ran.out), (2, b""))
            self.assertIn("--help", ran.err)
        self.file("taken", b"")
        ran = self.run_it("install", "--prefix", self.work / "taken")
        self.assertEqual(ran.status, 2)
        self.assertRegex(ran.err, "glubotar: .*/taken.* can't be written: ")


if __name__ == "__main__":
    unittest.main()
