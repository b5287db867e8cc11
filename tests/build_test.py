"""Tests of ./glubotar with a kit and a checker made for the purpose: the build, break-offs and interrupts. A trace is a script
that prints the checker's lines."""
import hashlib  # noqa: F401 (used by the launcher where permissions apply, and they keep Python from reading it then)
import os
import pathlib
import resource
import shutil
import signal
import subprocess
import time
import unittest
import unittest.mock

from launching import ROOT, Launching, limits, permissions, row, total
from launcher import processes, project, signals
from launcher.build import build_once
from launcher.streams import Failure

MACHINE = os.uname().machine
PROGRAM = """#!/bin/sh
all=$*
[ ${#all} -le 102400 ] || exit 3
[ $# -gt 0 ] || . ./on_input
for name; do
    [ "$name" != stops ] || exit 0
    echo "file $name"
    . "./$name"
done
"""
LOADER = """#!/bin/sh
[ "$1" = --library-path ] && shift 2 && exec "$@"
"""
RT = """#!/bin/sh
[ "$*" != doc ] || exec echo '{kit}/START-HERE.md'
[ "$*" = run ] && [ "${{PWD##*/}}" = glubotar ] && [ -f ../../crates.txt ] || exit 2
. '{kit}/run'
"""


class WithKit(Launching):
    def setUp(self):
        super().setUp()
        self.kit = self.work / "the kit"
        self.repository = self.work / "the repository"
        shutil.copytree(ROOT / "launcher", self.repository / "launcher", ignore=shutil.ignore_patterns("__pycache__"))
        shutil.copy(ROOT / "glubotar", self.repository)
        (self.repository / "docs").mkdir()
        shutil.copy(ROOT / "docs/TRACES.md", self.repository / "docs")
        (self.repository / "crates/glubotar/must-fail").mkdir(parents=True)
        (self.repository / "crates.txt").write_text("walks:\nfolds:\ntext: folds\nglubotar: text walks io\nother staticlib: folds\n")
        (self.repository / "crates/glubotar/main.rt").write_text("source\n")
        self.launcher = self.repository / "glubotar"
        self.target = self.repository / "target"
        self.checker = self.target / "checker" / MACHINE
        self.script(self.kit / "program", PROGRAM)
        self.script(self.kit / "toolchain/lib/ld-linux-x86-64.so.2", LOADER)
        self.script(self.kit / "bin/rt", RT.format(kit=self.kit))
        self.environment["PATH"] = f"{self.kit}/bin:{os.environ['PATH']}"
        self.builds = f"mkdir -p out; cp '{self.kit}/program' out/glubotar"
        self.rt_does(self.builds)
        self.trace("plain", "echo end 0 0")

    def script(self, path, text):
        path.parent.mkdir(parents=True, exist_ok=True)
        path.write_text(text)
        path.chmod(0o755)

    def rt_does(self, text):
        (self.kit / "run").write_text(text + "\n")

    def trace(self, name, text):
        (self.work / name).write_text(text + "\n")
        return name

    def go(self, *words, **others):
        return self.run_it(*words, cwd=self.work, **others)

    def awaited(self, test):
        for _ in range(200):
            if test():
                return True
            time.sleep(0.05)
        return False


BUILT = "glubotar: building the checker; it is proved first"
PLAIN = b"end 0 0\n"


class Build(WithKit):
    def test_rt_is_missing(self):
        (self.kit / "bin/rt").unlink()
        self.environment["PATH"] = "/nowhere"
        self.due(self.go("plain"), 2, b"", "a build needs rt of the Rattle kit, and that is not on the PATH")

    def test_a_failed_build_shows_the_end_of_its_log(self):
        self.rt_does("for i in $(seq 100); do echo line $i; done; echo no proof >&2; exit 1")
        ran = self.go("plain")
        log = self.target / "build.log"
        self.due(ran, 2, b"", BUILT, f"glubotar: the build failed; its log is {log}, which ends so:\n  line 82\n", "  line 100\n  no proof\n")
        self.assertNotIn("line 81\n", ran.err)
        self.assertEqual(len(log.read_text().splitlines()), 101)

    def test_a_build_that_leaves_nothing_of_use(self):
        self.rt_does("true")
        self.due(self.go("plain"), 2, b"", BUILT, "the build left no ")
        self.rt_does(self.builds + "; exit 1")
        self.due(self.go("plain"), 2, b"", BUILT, "the build failed")
        self.rt_does(self.builds + "; kill -9 $$")
        self.due(self.go("plain"), 2, b"", BUILT, "the build failed")
        self.rt_does(self.builds + "; echo more >main.rt")
        self.due(self.go("plain"), 2, b"", BUILT, "the sources changed while the checker was built")
        self.rt_does(self.builds)
        self.due(self.go("plain"), 0, PLAIN, BUILT)

    def test_a_build_where_nothing_can_be_written(self):
        full = limits(resource.RLIMIT_FSIZE, 0)
        self.due(self.go("plain", preexec_fn=full), 2, b"", "glubotar: no temporary folder can be made: ")
        self.due(self.go("plain"), 0, PLAIN, BUILT)

    def test_once_and_by_content(self):
        self.due(self.go("plain"), 0, PLAIN, BUILT)
        self.due(self.go("plain"), 0, PLAIN)
        self.rt_does("exit 1")  # no build, or it fails
        (self.repository / "crates/glubotar/must-fail/wrong.edit").write_text("edit\n")
        self.due(self.go("plain"), 0, PLAIN)
        for place in [self.repository / "crates.txt", *self.repository.glob("crates/**/*"), *self.checker.glob("*")]:
            os.utime(place, (1, 1))
        self.due(self.go("plain"), 0, PLAIN)
        moved = self.work / "moved"
        self.repository.rename(moved)
        self.launcher = moved / "glubotar"
        self.due(self.go("plain"), 0, PLAIN)

    def test_each_change_builds(self):
        self.due(self.go("plain"), 0, PLAIN, BUILT)
        main = self.repository / "crates/glubotar/main.rt"
        stamps = main.stat()

        def later():
            main.write_text("sourcE\n")
            os.utime(main, ns=(stamps.st_atime_ns, stamps.st_mtime_ns + 1))

        def in_place():
            other = main.with_name("other.rt")
            before = other.stat()
            other.write_bytes(other.read_bytes()[::-1])
            os.utime(other, ns=(before.st_atime_ns, before.st_mtime_ns))

        def at_the_same_time(text, path):
            path.write_text(text)
            os.utime(path, ns=(stamps.st_atime_ns, main.stat().st_mtime_ns))
            path.rename(main)

        changes = {
            "crates.txt": lambda: (self.repository / "crates.txt").write_text("glubotar: folds\n"),
            "a source": later,
            "a source of another size and the same time": lambda: at_the_same_time("longer source\n", main),
            "a source of the same size and time": lambda: at_the_same_time("longer sourcE\n", main.with_name("other")),
            "a stray file": lambda: (self.checker / "stray").write_text(""),
            "a new file": lambda: (self.repository / "crates/glubotar/new.rt").write_text(""),
            "a file less": lambda: (self.repository / "crates/glubotar/new.rt").unlink(),
            "a new name": lambda: main.rename(main.with_name("other.rt")),
            "the checker cut": lambda: (self.checker / "program").write_text("#!/bin/sh\n"),
            "the checker gone": lambda: (self.checker / "program").unlink(),
            "the record gone": lambda: self.checker.with_suffix(".sources").unlink(),
            "the record cut": lambda: self.checker.with_suffix(".sources").write_text("0"),
            "the record cut after its first line": lambda: self.checker.with_suffix(".sources").write_text("0\n"),
            "a source in its place, and its time put back": in_place,
            "all gone": lambda: shutil.rmtree(self.target),
        }
        for name, change in changes.items():
            with self.subTest(change=name):
                change()
                self.due(self.go("plain"), 0, PLAIN, BUILT)
                self.due(self.go("plain"), 0, PLAIN)
        self.assertFalse((self.checker / "stray").exists())

    def test_a_link_that_an_editor_leaves(self):
        (self.repository / "crates/glubotar/.#main.rt").symlink_to("somebody@somewhere")
        self.due(self.go("plain"), 0, PLAIN, BUILT)
        self.due(self.go("plain"), 0, PLAIN)

    def test_a_source_that_changes_behind_the_record(self):
        self.due(self.go("plain"), 0, PLAIN, BUILT)
        here = project.Project(str(self.repository))
        main = self.repository / "crates/glubotar/main.rt"
        os.utime(main, (1, 1))
        write_record = here.write_record

        def save_first(*record):
            main.write_text("another\n")
            write_record(*record)

        with unittest.mock.patch.object(here, "write_record", save_first):
            self.assertTrue(here.is_built())  # it was, when it was looked at
        self.assertFalse(here.is_built())

    def test_a_kit_that_does_not_start(self):
        self.script(self.kit / "bin/rt", "no script")
        self.due(self.go("plain"), 2, b"", "the build failed", "rt can't be started: ")

    def test_a_read_only_folder(self):
        self.due(self.go("plain"), 0, PLAIN, BUILT)
        main = self.repository / "crates/glubotar/main.rt"
        here = project.Project(str(self.repository))
        with permissions():
            self.assertTrue(here.is_built())
        os.utime(main, (1, 1))
        with permissions():
            self.assertTrue(here.is_built())
        main.write_text("other\n")
        (self.target / "building.lock").chmod(0o444)
        with permissions(), self.assertRaises(Failure) as said:
            self.assertFalse(here.is_built())
            build_once(here)
        self.assertIn(f"nothing can be built in {self.repository}: not allowed", str(said.exception))

    def test_two_at_once_build_once(self):
        note = self.work / "builds"
        self.rt_does(f"echo once more >>'{note}'; sleep 1; {self.builds}")
        with subprocess.Popen(self.words("plain"), cwd=self.work, env=self.environment, stdout=subprocess.PIPE,
                              stderr=subprocess.DEVNULL) as other:
            self.assertTrue(self.awaited(note.exists))
            second = subprocess.run(self.words("plain"), cwd=self.work, env=self.environment, capture_output=True, check=False)
            self.assertEqual((second.returncode, second.stdout, second.stderr),
                             (0, PLAIN, b"glubotar: another run builds the checker; waiting\n"))
            self.assertEqual((other.communicate()[0], other.returncode), (PLAIN, 0))
        self.assertEqual(note.read_text(), "once more\n")


class Checkers(WithKit):
    def setUp(self):
        super().setUp()
        self.go("plain")

    def test_side_by_side_and_in_order(self):
        # Each of two traces ends well once the other has begun, the first one later.
        def meet(own, other):
            return (f": >{own}.begun; for i in 1 2 3 4 5 6 7 8 9; do [ -e {other}.begun ] || sleep 0.5; done; "
                    f"[ -e {other}.begun ] || exit")
        self.trace("one", meet("one", "two") + "; sleep 0.5; echo 1 ok; echo end 1 0")
        self.trace("two", meet("two", "one") + "; echo 2 ok; echo end 2 0")
        self.due(self.go("--jobs", "2", "one", "two"), 0, row("one", 1, 0, "-") + row("two", 2, 0, "-") + total(2, 3, 0, 0, 0))

    def test_long_names_make_short_command_lines(self):
        name = "./" * 1900 + "plain"
        listed = self.file("list", f"{name}\n".encode() * 200)
        self.due(self.go("--jobs", "1", "--from", listed), 0, row(name, 0, 0, "-") * 200 + total(200, 0, 0, 0, 0))

    def test_a_checker_that_dies_at_trace_k(self):
        self.trace("stops", "")
        self.due(self.go("-j1", "plain", "stops", "plain"), 2, row("plain", 0, 0, "-"), "the checker broke off at stops\n")
        self.due(self.go("stops"), 2, b"", "the checker broke off at stops\n")
        for how in ("echo 1 ok 0 0 00000000; exit 0", "exit 0", "kill -KILL $$", "echo 1 ok 0 0 00000000; echo end 1 0; exit 1"):
            self.trace("broken", how)
            for jobs in ("1", "3"):
                for k in (0, 1, 7, 19):
                    with self.subTest(how=how, jobs=jobs, k=k):
                        names = ["plain"] * k + ["broken"] + ["plain"] * (19 - k)
                        ran = self.go("--jobs", jobs, *names)
                        self.assertEqual(ran.status, 2)
                        self.assertRegex(ran.err, "glubotar: the checker broke off at (broken|plain)\n")
                        self.assertNotIn(b"broken\t0", ran.out)
                        self.assertNotIn(b"total", ran.out)
        self.trace("broken", "echo 1 ok 0 0 00000000; exit 0")
        self.due(self.go("--jobs", "1", "plain", "broken", "plain"), 2, row("plain", 0, 0, "-"), "the checker broke off at broken\n")
        self.trace("broken", "kill -KILL $$")
        self.due(self.go("broken"), 2, b"", "glubotar: the checker broke off at broken\n")

    def test_a_checker_that_says_something_else(self):
        for name, text in {"more": "echo end 0 0; echo end 0 0", "another": "echo unreadable plain", "lines lost": "echo 1 ok; echo end 2 0",
                           "no numbers": "echo 1 ok; echo end one 0", "no refusal": "echo 1 ok; echo end 0 1", "nothing": "true",
                           "refusals taken for accepted": "echo 1 no 5; echo 2 no 5; echo end 2 0"}.items():
            with self.subTest(says=name):
                self.trace("odd", text)
                for words in (["odd"], ["odd", "plain"], ["plain", "odd"]):
                    ran = self.go("-j1", *words)
                    self.assertEqual((ran.status, ran.out.count(b"odd\t")), (2, 0))
                    self.assertIn("glubotar: the checker", ran.err)

    def test_lines_that_no_checker_prints(self):
        self.trace("odd", "echo 1 perhaps; echo end 1 0")
        for words in (["--format", "json", "odd"], ["--format", "json", "--lines", "plain", "odd"]):
            ran = self.go("-j1", *words)
            self.assertEqual((ran.status, ran.out.count(b"odd")), (2, 0))
            self.assertRegex(ran.err, r"\Aglubotar: The checker's line `1 perhaps` [^\n]*\n\Z")

    def test_the_same_of_standard_input(self):
        for says in ("exit 0", "echo 1 ok; exit 0", "echo end 0 0; exit 1", "echo end 0 0; echo end 0 0", "kill -9 $$"):
            self.trace("on_input", says)
            for command in ((), ("-", "plain"), ("explain",)):
                with self.subTest(says=says, command=command):
                    ran = self.go(*command, data=b"\1")
                    self.assertEqual((ran.status, ran.out), (2, b""))
                    self.assertIn("the checker broke off at -\n", ran.err)
        self.trace("on_input", "echo end 0 0")
        self.due(self.go(data=b"\1"), 0, PLAIN)

    def test_more_jobs_than_there_can_be(self):
        self.file("list", b"plain\n" * 3000)
        ran = self.go("-j", "500", "--from", "list", preexec_fn=limits(resource.RLIMIT_AS, 400 << 20))
        if ran.status:
            self.assertEqual((ran.status, ran.err.count("Traceback")), (2, 0))

    def test_a_checker_that_cannot_be_started(self):
        loader = self.checker / "ld-linux-x86-64.so.2"
        loader.chmod(0o644)
        self.assertEqual(self.go("plain").status, 2)


class Interrupts(WithKit):
    def interrupt(self, number, *words):
        """Interrupts a run while processes that noted their numbers hang; they have to be gone then."""
        hanging = self.work / "hanging"
        hanging.unlink(missing_ok=True)
        process = subprocess.Popen(self.words(*words), cwd=self.work, env=self.environment, stdout=subprocess.PIPE,
                                   stderr=subprocess.PIPE, preexec_fn=lambda: number == signal.SIGKILL or
                                   signal.signal(number, signal.SIG_DFL))
        self.assertTrue(self.awaited(lambda: hanging.exists() and hanging.read_text().endswith("\n")))
        process.send_signal(number)
        out, err = process.communicate()
        numbers = [int(line) for line in hanging.read_text().split()]
        self.assertTrue(self.awaited(lambda: not any(map(is_there, numbers))), "it left a process")
        return process.returncode, out, err

    def test_a_run(self):
        self.go("plain")
        self.trace("hanging_trace", f"echo $$ >>'{self.work}/hanging'; exec sleep 60")
        for number in (signal.SIGHUP, signal.SIGINT, signal.SIGTERM):
            for words in (["hanging_trace"], ["--jobs", "2", *["hanging_trace"] * 3], ["-j1", "plain", "hanging_trace"]):
                with self.subTest(signal=number, words=words):
                    status, out, err = self.interrupt(number, *words)
                    self.assertEqual((status, err), (-number, b""))
                    self.assertNotIn(b"total", out)
                    self.assertEqual(os.listdir(self.scratch), [])

    def test_a_run_whose_output_nobody_takes(self):
        self.go("plain")
        self.trace("long", "for i in $(seq 20000); do echo $i ok; done; echo end 20000 0")
        self.trace("hanging_trace", f"echo $$ >>'{self.work}/hanging'; exec sleep 60")
        status, _, err = self.interrupt(signal.SIGTERM, "--lines", "-j3", "long", "long", "hanging_trace", "hanging_trace")
        self.assertEqual((status, err), (-signal.SIGTERM, b""))

    def test_a_build(self):
        self.rt_does(f"sleep 60 & mktemp; {{ echo $$; echo $!; }} >'{self.work}/hanging'; wait")
        for number in (signal.SIGINT, signal.SIGTERM, signal.SIGHUP):
            with self.subTest(signal=number):
                status, out, _ = self.interrupt(number, "plain")
                self.assertEqual((status, out), (-number, b""))
                self.assertEqual(os.listdir(self.scratch), [])

    def test_a_build_whose_launcher_is_killed(self):
        self.rt_does(f"sleep 60 & {{ echo $$; echo $!; }} >'{self.work}/hanging'; wait")
        self.assertEqual(self.interrupt(signal.SIGKILL, "plain")[0], -signal.SIGKILL)
        shutil.rmtree(self.scratch)  # which nobody was left to clean
        self.scratch.mkdir()
        self.rt_does(self.builds)
        self.due(self.go("plain"), 0, PLAIN, BUILT)  # and the lock is free

    def test_a_build_that_leaves_a_process(self):
        self.rt_does(f"sleep 60 & echo $! >'{self.work}/hanging'; {self.builds}")
        self.due(self.go("plain"), 0, PLAIN, BUILT)
        self.assertTrue(self.awaited(lambda: not is_there(int((self.work / "hanging").read_text()))))

    def test_a_signal_waits_for_what_must_be_whole(self):
        heeded = {number: signal.getsignal(number) for number in signals.ENDING}
        try:
            signals.heed()
            done = []
            with self.assertRaises(signals.Interrupted) as interrupted:
                with signals.held():
                    os.kill(os.getpid(), signal.SIGTERM)
                    done.append("whole")
            os.kill(os.getpid(), signal.SIGINT)  # once is enough
        finally:
            signals.State.held.clear()
            for number, handler in heeded.items():
                signal.signal(number, handler)
        self.assertEqual((done, interrupted.exception.number), (["whole"], signal.SIGTERM))

    def test_nothing_starts_once_all_is_over(self):
        with processes.Processes() as over:
            pass
        self.assertRaises(Failure, over.start, [b"/bin/true"], False)

    def test_an_ignored_signal_stays_ignored(self):
        self.go("plain")
        self.trace("slow", "sleep 0.5; echo end 0 0")
        process = subprocess.Popen(self.words("slow"), cwd=self.work, env=self.environment, stdout=subprocess.PIPE,
                                   preexec_fn=lambda: signal.signal(signal.SIGHUP, signal.SIG_IGN))
        time.sleep(0.2)
        process.send_signal(signal.SIGHUP)
        self.assertEqual((process.communicate()[0], process.returncode), (PLAIN, 0))


def is_there(number):
    """Whether a process is there and no mere remnant that nobody has waited for."""
    try:
        state = pathlib.Path(f"/proc/{number}/stat").read_text().rpartition(")")[2].split()[0]
    except OSError:
        return False
    return state != "Z"


if __name__ == "__main__":
    unittest.main()
