"""Tests of ./glubotar with the checker that it starts: outputs, order, exit status, and that no name is lost."""
import json
import os
import resource
import subprocess
import time
import unittest
import unittest.mock
import xml.etree.ElementTree as ElementTree

from launching import (EXAMPLE_ROWS, EXAMPLE_TOTAL, EXAMPLES, GLUBOTAR, GOOD, GOOD_TEXT, ROOT, WRONG, WRONG_TEXT,
                       Launching, Ran, good_row, limits, miss_row, permissions, row, total, wrong_row)
from launcher import checker, names, project, streams
from launcher.streams import Failure


class OneTrace(Launching):
    def test_every_kept_trace(self):
        for text in sorted([*ROOT.glob("examples/*.expected"), *ROOT.glob("tests/traces/*.expected")]):
            with self.subTest(trace=text.stem):
                ran = self.run_it(text.with_suffix(".trace"))
                due = text.read_bytes()
                self.due(ran, *((0, due) if due.endswith(b" 0\n") else (1, due, "glubotar: refused: ")))

    def test_standard_input(self):
        self.due(self.run_it(data=(ROOT / WRONG).read_bytes()), 1, WRONG_TEXT, "glubotar: refused: - 3:14\n")
        self.due(self.run_it("-", data=(ROOT / WRONG).read_bytes()), 1, WRONG_TEXT, "refused")
        ran = self.run_it(GOOD, "-", GOOD, data=(ROOT / WRONG).read_bytes())
        self.due(ran, 1, good_row() + wrong_row("-") + good_row() + total(3, 22, 1, 0, 1), "refused")
        ran = self.run_it("--summary", data=(ROOT / WRONG).read_bytes())
        self.due(ran, 1, wrong_row("-") + total(1, 2, 1, 0, 1), "refused")

    def test_the_word_check_and_the_start_by_its_own_first_line(self):
        self.due(self.run_it("check", WRONG), 1, WRONG_TEXT, "refused")
        self.due(self.run_it("check", data=(ROOT / WRONG).read_bytes()), 1, WRONG_TEXT, "refused")
        ran = subprocess.run([GLUBOTAR, WRONG], cwd=ROOT, capture_output=True, check=False)
        self.assertEqual((ran.returncode, ran.stdout), (1, WRONG_TEXT))

    def test_an_empty_trace(self):
        self.due(self.run_it(), 1, b"0 no 2\nend 0 1\n", "glubotar: refused: - 0:2\n")

    def test_the_longest_trace_and_one_byte_more(self):
        # One warp that passes a barrier for 32 threads 13,107 times: 65,536 bytes.
        trace = self.file("longest", b"\1" + b"\3\0\0\x20\0" * 13107)
        due = b"".join(b"%d ok 0 1 00000001\n" % step for step in range(1, 13108)) + b"end 13107 0\n"
        self.due(self.run_it(trace), 0, due)
        self.due(self.run_it("--lines", trace), 0, b"".join(
            os.fsencode(trace) + b"\t" + line for line in due.splitlines(keepends=True)) + total(1, 13107, 0, 0, 0))
        trace.write_bytes(trace.read_bytes() + b"\1")
        self.due(self.run_it(trace), 1, b"0 no 21\nend 0 1\n", "longest 0:21")

    def test_input_that_cannot_be_read(self):
        with open(self.work / "written", "wb") as writing:
            self.due(self.run_it(stdin=writing), 2, b"", "glubotar: unreadable: -: bad file descriptor\n")
            self.due(self.run_it("-", GOOD, stdin=writing), 2, miss_row("-") + good_row() + total(2, 10, 0, 1, 0), "unreadable: -")
        folder = os.open(ROOT, os.O_RDONLY)
        self.addCleanup(os.close, folder)
        for words, due in (([], (2, b"")), (["-"], (2, b"")), ([WRONG], (1, WRONG_TEXT))):
            ran = subprocess.run([GLUBOTAR, *words], cwd=ROOT, stdin=folder, capture_output=True, check=False)
            self.assertEqual((ran.returncode, ran.stdout), due)
            self.assertRegex(ran.stderr, b"glubotar: (unreadable: -: |refused: )")

    def test_without_python(self):
        ran = subprocess.run([GLUBOTAR, WRONG], cwd=ROOT, env={"PATH": "/nowhere"}, capture_output=True, check=False)
        self.assertEqual((ran.returncode, ran.stdout, ran.stderr), (2, b"", b"glubotar: Python 3.9 or newer is needed\n"))

    def test_closed_streams(self):
        for closed, due in (("<&-", (1, WRONG_TEXT)), (">&-", (2, b"")), ("2>&-", (1, WRONG_TEXT)), ("<&- >&- 2>&-", (2, b""))):
            with self.subTest(closed=closed):
                ran = subprocess.run(f"'{GLUBOTAR}' {WRONG} {closed}", shell=True, cwd=ROOT, check=False,
                                     capture_output=True)
                self.assertEqual((ran.returncode, ran.stdout), due)

    def test_a_name_of_an_open_file(self):
        ran = subprocess.run(["bash", "-c", f"'{GLUBOTAR}' <(cat {WRONG}) <(cat {GOOD})"], cwd=ROOT, check=False,
                             capture_output=True)
        self.assertEqual((ran.returncode, ran.stdout[-17:]), (1, total(2, 12, 1, 0, 1)))
        ran = self.run_it("/dev/stdin", data=(ROOT / WRONG).read_bytes())
        self.due(ran, 1, WRONG_TEXT, "refused")


class SeveralTraces(Launching):
    def test_a_line_for_each(self):
        ran = self.run_it(*EXAMPLES)
        self.due(ran, 1, EXAMPLE_ROWS + EXAMPLE_TOTAL, "glubotar: refused: examples/drop_out.trace 14:5, and 4 more steps\n")
        self.due(self.run_it(GOOD, GOOD), 0, good_row() + good_row() + total(2, 20, 0, 0, 0))
        self.due(self.run_it(GOOD, "--summary"), 0, good_row() + total(1, 10, 0, 0, 0))
        self.due(self.run_it("--summary", "--summary", GOOD), 0, good_row() + total(1, 10, 0, 0, 0))

    def test_all_lines(self):
        due = b"".join(os.fsencode(trace) + b"\t" + line for trace in EXAMPLES for line in
                       (ROOT / trace).with_suffix(".expected").read_bytes().splitlines(keepends=True)) + EXAMPLE_TOTAL
        for words in (["--lines"], ["--jobs=2", "--lines"], ["--lines", "-j1"]):
            self.due(self.run_it(*words, *EXAMPLES), 1, due, "refused")

    def test_jobs_change_nothing(self):
        for jobs in (["--jobs", "1"], ["-j", "2"], ["-j3"], ["--jobs=16"]):
            self.due(self.run_it(*jobs, *EXAMPLES), 1, EXAMPLE_ROWS + EXAMPLE_TOTAL, "refused")

    def test_a_folder(self):
        self.due(self.run_it("examples"), 1, EXAMPLE_ROWS + EXAMPLE_TOTAL, "refused")
        deep = self.work / "b" / "deep"
        deep.mkdir(parents=True)
        for path in (deep / "2.trace", self.work / "b" / "1.trace", self.work / "b" / "other.txt", self.work / "a.trace"):
            path.write_bytes((ROOT / GOOD).read_bytes())
        (deep / "circle").symlink_to(self.work)
        (self.work / "linked").symlink_to(deep)
        ran = self.run_it("-j1", ".", cwd=self.work)
        names = ["./a.trace", "./b/1.trace", "./b/deep/2.trace", "./linked/2.trace"]
        self.due(ran, 0, b"".join(map(good_row, names)) + total(4, 40, 0, 0, 0))
        (deep / "circle").unlink()
        self.due(self.run_it("b/deep", cwd=self.work), 0, good_row("b/deep/2.trace") + total(1, 10, 0, 0, 0))
        (self.work / "b" / "gone.trace").symlink_to("nowhere")
        self.due(self.run_it("b", cwd=self.work), 2, good_row("b/1.trace") + good_row("b/deep/2.trace")
                 + miss_row("b/gone.trace") + total(3, 20, 0, 1, 0), "b/gone.trace: no such file")

    def test_a_deep_folder(self):
        deep = self.work
        for _ in range(120):
            deep = deep / "0123456789"
        deep.mkdir(parents=True)
        (deep / "1.trace").write_bytes((ROOT / GOOD).read_bytes())
        self.due(self.run_it(self.work), 0, good_row(deep / "1.trace") + total(1, 10, 0, 0, 0))

    def test_a_folder_with_a_link_that_leads_nowhere(self):
        (self.work / "a.trace").write_bytes((ROOT / GOOD).read_bytes())
        (self.work / "share").symlink_to("/no such share")
        self.due(self.run_it(self.work), 2, b"", f"a link leads nowhere: {self.work / 'share'}\n")

    def test_a_folder_with_what_is_no_file(self):
        os.mkfifo(self.work / "pipe.trace")
        self.due(self.run_it(self.work), 2, b"", f"what is in a folder has to be a file: {self.work / 'pipe.trace'}\n")

    def test_a_folder_that_hides_something(self):
        (self.work / "empty").mkdir()
        self.due(self.run_it(GOOD, self.work / "empty"), 2, b"", "no *.trace is in the folder ")
        closed = self.work / "closed"
        closed.mkdir(mode=0o700)
        (self.work / "some.trace").write_bytes((ROOT / GOOD).read_bytes())
        os.chmod(self.work, 0o755)
        with permissions(), self.assertRaises(Failure) as said:
            names.Names([("trace", os.fsencode(self.work))])
        self.assertEqual(str(said.exception), f"a folder can't be gone through: {closed}: not allowed")

    def test_unreadable_ones_say_why(self):
        self.due(self.run_it("missing"), 2, b"", "glubotar: unreadable: missing: no such file\n")
        self.due(self.run_it(GOOD + "/x"), 2, b"", "no such file")
        self.due(self.run_it("a" * 5000, GOOD), 2, miss_row("a" * 5000) + good_row() + total(2, 10, 0, 1, 0), "name is too long")
        self.due(self.run_it("a" * 300, GOOD), 2, miss_row("a" * 300) + good_row() + total(2, 10, 0, 1, 0), "name too long")
        kept = self.file("kept", b"\1")
        os.chmod(kept, 0)
        with permissions():
            self.assertEqual(checker.why_unreadable(os.fsencode(kept)), "not allowed")

    def test_unreadable_ones_among_others(self):
        ran = self.run_it(WRONG, "missing", "gone", GOOD)
        self.due(ran, 2, wrong_row() + miss_row("missing") + miss_row("gone") + good_row() + total(4, 12, 1, 2, 1),
                 f"glubotar: refused: {WRONG} 3:14\n", "glubotar: unreadable: missing: no such file\n",
                 "glubotar: unreadable: gone: no such file\n")
        ran = self.run_it(*[f"gone{number}" for number in range(13)])
        self.assertEqual((ran.status, ran.err.count("\n")), (2, 10))
        self.assertIn("glubotar: unreadable: gone9: no such file, and 3 more traces\n", ran.err)
        ran = self.run_it("--lines", "missing", WRONG)
        lines = b"".join(os.fsencode(WRONG) + b"\t" + line for line in WRONG_TEXT.splitlines(keepends=True))
        self.due(ran, 2, b"missing\tunreadable\n" + lines + total(2, 2, 1, 1, 1), "unreadable")

    def test_only_those_that_failed(self):
        rows = b"".join(line for line in EXAMPLE_ROWS.splitlines(keepends=True) if not line.endswith(b"\t0\t-\n"))
        self.due(self.run_it("--failed", *EXAMPLES), 1, rows + EXAMPLE_TOTAL, "refused")
        self.due(self.run_it("--failed", GOOD, "missing"), 2, miss_row("missing") + total(2, 10, 0, 1, 0), "missing")
        self.due(self.run_it("--failed", GOOD), 0, b"")

    def test_what_looks_like_text(self):
        text = WRONG + ".txt"
        ran = self.run_it(text, GOOD)
        self.due(ran, 1, row(text, 0, 1, "0:4") + good_row() + total(2, 10, 1, 0, 1),
                 f"looks like a text, of which `glubotar asm` makes a trace: {text}\n")
        for data in (b"\n# begins with an empty line\n", b"#" * 70000, "# naïve\n".encode()):
            self.assertIn("looks like a text", self.run_it(self.file("text", data)).err)
        for data in (b"\xff\1\2", b"", b"warps\0"):
            self.assertNotIn("looks like a text", self.run_it(self.file("none", data)).err)
        os.mkfifo(self.work / "pipe")
        with subprocess.Popen(["sh", "-c", f"echo warps 2 >'{self.work}/pipe'"]):
            self.due(self.run_it(self.work / "pipe"), 1, b"0 no 4\nend 0 1\n", "refused")
        self.assertIn("looks like a text", self.run_it("explain", WRONG + ".txt").err)
        self.assertIn("looks like a text, of which `glubotar asm` makes a trace: -\n", self.run_it(data=b"warps 2\n").err)


class TheProgramAlone(Launching):
    """What the launcher starts, without it."""

    def words(self, *words):
        return [*project.Project(str(ROOT)).command(), *words]

    def test_more_traces_than_it_may_hold_open(self):
        few = limits(resource.RLIMIT_NOFILE, 32)  # each is closed before the next
        self.due(self.run_it(*[WRONG] * 200, preexec_fn=few), 0, (f"file {WRONG}\n".encode() + WRONG_TEXT) * 200)

    def test_what_it_can_open(self):
        odd = self.file(b"no\xffutf", (ROOT / GOOD).read_bytes())
        self.due(self.run_it(odd, "missing", WRONG), 0, b"unreadable %s\nunreadable missing\nfile %s\n" % (os.fsencode(odd), WRONG.encode())
                 + WRONG_TEXT)

    @unittest.skipUnless(os.path.exists("/dev/full"), "there is no device that is always full")
    def test_a_full_output(self):
        for words in ([WRONG], ["missing", WRONG], []):
            with self.subTest(words=words), open("/dev/full", "wb") as full:
                self.due(self.run_it(*words, data=(ROOT / GOOD).read_bytes(), stdout=full), 0, b"", "standard output: ")


class Names(Launching):
    def test_odd_ones(self):
        for name in ("two  words", " edge ", "-dash", "--lines", "a=b", "back\\nslash", "quote'd", "*", "$HOME", "end",
                     "file x", "naïve", "check", "total", b"no\xffutf"):
            with self.subTest(name=name):
                self.file(name, (ROOT / GOOD).read_bytes())
                self.due(self.run_it("--", name, cwd=self.work), 0, GOOD_TEXT)
                self.due(self.run_it("--", name, name, cwd=self.work), 0, good_row(name) * 2 + total(2, 20, 0, 0, 0))

    def test_no_utf8(self):
        odd, gone = b"no\xffutf", b"gone\xff"
        self.file(odd, (ROOT / WRONG).read_bytes())
        self.file("a", (ROOT / GOOD).read_bytes())
        due = wrong_row(odd) + good_row("a") + miss_row(gone) + wrong_row(odd) + total(4, 14, 2, 1, 2)
        for jobs in ("-j1", "-j3"):
            ran = self.run_it(jobs, odd, "a", gone, odd, cwd=self.work)
            self.assertEqual((ran.status, ran.out), (2, due))
            self.assertIn(f"unreadable: {os.fsdecode(gone)}: no such file\n", ran.err)
        text = self.file(b"text\xff", b"warps 2\n")
        self.assertIn("looks like a text", self.run_it(text).err)

    def test_tabs_and_line_ends(self):
        odd = ["two\tcolumns", "two\nlines", "\x1b[31m", "x\nend 9 9\nfile y", "\x7f\r\x9b", "naïve\t"]
        shown = [b"two\\tcolumns", b"two\\nlines", b"\\x1b[31m", b"x\\nend 9 9\\nfile y", b"\\x7f\\r\\x9b", "naïve\\t".encode()]
        for name in odd:
            self.file(name, (ROOT / WRONG).read_bytes())
        ran = self.run_it(*odd, cwd=self.work)
        self.due(ran, 1, b"".join(map(wrong_row, shown)) + total(6, 12, 6, 0, 6), "two\\tcolumns 3:14, and 5 more steps")
        joined = self.run_it("join", data=ran.out)
        self.assertEqual((joined.status, joined.out), (1, ran.out))
        listed = self.file("list", b"".join(name.encode() + b"\0" for name in odd))
        again = self.run_it("--from0", listed, cwd=self.work)
        self.assertEqual((again.status, again.out), (1, ran.out))
        exact = self.run_it("--format", "json", "--summary", *odd, cwd=self.work).out.splitlines()[:-1]
        self.assertEqual([json.loads(line)["trace"] for line in exact], odd)
        self.due(self.run_it(odd[3], cwd=self.work), 1, WRONG_TEXT, "refused")

    def test_the_longest(self):
        self.file("a", (ROOT / GOOD).read_bytes())
        longest = "./" * 2047 + "a"
        self.due(self.run_it(longest, cwd=self.work), 0, GOOD_TEXT)
        self.due(self.run_it("." + "/" + longest, longest, cwd=self.work), 2, miss_row("./" + longest) + good_row(longest)
                 + total(2, 10, 0, 1, 0), "its name is too long")

    def test_started_by_a_link_from_another_folder(self):
        (self.work / "link").symlink_to(GLUBOTAR)
        self.file("a", (ROOT / GOOD).read_bytes())
        ran = subprocess.run(["./link", "a"], cwd=self.work, capture_output=True, check=False)
        self.assertEqual((ran.returncode, ran.stdout), (0, GOOD_TEXT))


class Lists(Launching):
    def test_a_list(self):
        both = good_row() + wrong_row() + total(2, 12, 1, 0, 1)
        listed = self.file("list", f"{GOOD}\n\n{WRONG}".encode())
        self.due(self.run_it("--from", listed), 1, both, "refused")
        ran = self.run_it(WRONG, "--from=-", WRONG, data=listed.read_bytes())
        self.due(ran, 1, wrong_row() + good_row() + wrong_row() * 2 + total(4, 16, 3, 0, 3), "refused")
        self.due(self.run_it("--from0", "-", data=f"{GOOD}\0{WRONG}\0".encode()), 1, both, "refused")
        self.due(self.run_it("--from", "-", data=f"{GOOD}\n".encode()), 0, good_row() + total(1, 10, 0, 0, 0))
        self.due(self.run_it("--from", "-", data=b"examples\n"), 1, EXAMPLE_ROWS + EXAMPLE_TOTAL, "refused")

    def test_a_list_that_is_no_list(self):
        crlf = f"{GOOD}\r\n{WRONG}\r\n".encode()
        listed = self.file("list", crlf)
        self.due(self.run_it("--from", listed), 2, b"", f"glubotar: a name ends in a carriage return: is the list a Windows file? {listed}\n")
        self.due(self.run_it("--from", "-", GOOD, data=crlf), 2, b"", "is the list a Windows file? -")
        self.due(self.run_it("--from", "/dev/null"), 2, b"", "the list names no trace")
        self.due(self.run_it("--from0", "/dev/null"), 2, b"", "the list names no trace")
        self.due(self.run_it("--from", self.work / "no-list"), 2, b"", "list of traces can't be read: ", "no-list: no such file")
        self.due(self.run_it("--from", "examples"), 2, b"", "is a folder")
        self.due(self.run_it("--from", "-", data=b"a\0b\0"), 2, b"", "--from0")
        self.due(self.run_it("--from0", "-", data=b"a\0\0b\0"), 2, b"", "a name is empty")

    def test_a_list_that_is_cut(self):
        whole = "".join(f"{trace}\n" for trace in EXAMPLES).encode()
        ran = self.run_it("--from", "-", data=whole[:-5])
        self.assertEqual(ran.status, 2)
        self.assertIn("examples/whole_case.t: no such file; was the list cut? -", ran.err)
        self.assertEqual(ran.out.count(b"\n"), len(EXAMPLES) + 1)
        ran = self.run_it("--from", "-", data=f"{GOOD}\nexamples/".encode())
        self.due(ran, 2, b"", "the list's last name has no end and is a folder, examples/: was it cut? -")
        by_nul = whole.replace(b"\n", b"\0")
        self.due(self.run_it("--from0", "-", data=by_nul[:-1]), 2, b"", "the list is cut: its last name, examples/whole_case.trace")


class BadUse(Launching):
    def test_options(self):
        for words in ("--nothing", "-x", "--jobs", "--jobs=0", "--jobs=-1", "--jobs=two", "--jobs=08", "--jobs=10000",
                      "--from", "--format", "--format=xml", "--join", "--line", "--lines=2", "--trace=x", "--jobs=1\n\x1b[31m",
                      "--x\n\x1b[31m"):
            with self.subTest(words=words):
                ran = self.run_it(GOOD, words)
                self.assertEqual((ran.status, ran.out), (2, b""))
                self.assertRegex(ran.err, r"\Aglubotar: .*--.*\n\Z")
        for words in (["--summary", "--lines"], ["--lines", "--summary"]):
            self.due(self.run_it(*words, GOOD), 2, b"", "glubotar: --", " and --", " don't go together")

    def test_names(self):
        self.due(self.run_it("", GOOD), 2, b"", "a name is empty")
        self.due(self.run_it("-", GOOD, "-"), 2, b"", "standard input is named more than once")
        self.due(self.run_it("-", "--from", "-"), 2, b"", "standard input is named more than once")
        for words, part in ((["--", "--"], "--: no such file"), (["--from=--"], "can't be read: --: no such file"),
                            (["--from", "--"], "--from wants a value"), (["show", "-o", "--", WRONG], "-o wants a value")):
            self.due(self.run_it(*words), 2, b"", part)

    def test_help_and_version(self):
        for words in (["--help"], ["-h"], ["check", "--help"], [GOOD, "-h"]):
            ran = self.run_it(*words)
            self.assertEqual((ran.status, ran.err), (0, ""))
            self.assertIn(b"\nExit status: 0 ", ran.out)
            self.assertIn(b"A trace in which warps still wait at its end is not refused", ran.out)
        for command in ("explain", "show", "asm", "join", "install"):
            ran = self.run_it(command, "--help")
            self.assertEqual((ran.status, ran.err), (0, ""))
            self.assertTrue(ran.out.startswith(b"Usage: glubotar " + command.encode()))
            self.assertIn(f"glubotar {command} ".encode(), self.run_it("--help").out)
        header = (ROOT / "include/glubotar.h").read_text()
        version = self.run_it("--version").out.decode().split()
        self.assertEqual(version[0], "glubotar")
        self.assertIn(f'#define GLUBOTAR_VERSION "{version[1]}"\n', header)


class Forms(Launching):
    def test_tsv_is_the_text_that_is_piped(self):
        self.due(self.run_it("--format", "tsv", *EXAMPLES), 1, EXAMPLE_ROWS + EXAMPLE_TOTAL, "refused")
        self.due(self.run_it("--format=tsv", WRONG), 1, WRONG_TEXT, "refused")

    def objects(self, *words):
        ran = self.run_it("--format", "json", *words)
        return ran.status, [json.loads(line) for line in ran.out.splitlines()]

    def test_json(self):
        wrong = {"trace": WRONG, "accepted": 2, "refused": 1, "first": {"step": 3, "refusal": 14}}
        steps = [{"step": 1, "ok": True, "value": 0, "done": False, "released": []},
                 {"step": 2, "ok": True, "value": 0, "done": True, "released": [0, 1]},
                 {"step": 3, "ok": False, "refusal": 14}]
        good = {"trace": GOOD, "accepted": 10, "refused": 0, "first": None}
        whole = {"total": {"traces": 3, "accepted": 12, "refused": 1, "unreadable": 1, "traces_refused": 1}}
        self.assertEqual(self.objects(WRONG, GOOD, "missing"),
                         (2, [wrong, good, {"trace": "missing", "unreadable": "no such file"}, whole]))
        self.assertEqual(self.objects(WRONG), (1, [{**wrong, "steps": steps}]))
        whole = {"total": {"traces": 1, "accepted": 2, "refused": 1, "unreadable": 0, "traces_refused": 1}}
        self.assertEqual(self.objects("--lines", WRONG), (1, [{**wrong, "steps": steps}, whole]))
        self.assertEqual(self.objects("--summary", WRONG), (1, [wrong, whole]))

    def test_junit(self):
        odd = self.file("a\t<b>&\"\x1b", (ROOT / GOOD).read_bytes())
        cut = self.file(b"list\xff", b"gone")
        self.assertEqual(len(ElementTree.fromstring(self.run_it("--format", "junit", "--from", cut).out)), 1)
        ran = self.run_it("--format", "junit", WRONG, GOOD, "missing", odd, b"no\xffutf", "\uffff")
        self.assertEqual(ran.status, 2)
        suite = ElementTree.fromstring(ran.out)
        self.assertEqual(suite.attrib, {"name": "glubotar", "tests": "6", "failures": "1", "errors": "3"})
        failed = ElementTree.fromstring(self.run_it("--format", "junit", "--failed", WRONG, GOOD).out)
        self.assertEqual((failed.get("tests"), len(failed)), ("1", 1))
        cases = list(suite)
        self.assertEqual([case.get("name") for case in cases[:3]], [WRONG, GOOD, "missing"])
        self.assertIn("<b>&\"\\x1b", cases[3].get("name"))
        failure = cases[0].find("failure")
        self.assertEqual((failure.get("type"), failure.text), ("14", "1 of 3 steps are refused"))
        self.assertRegex(failure.get("message"), "step 3 is refused by 14: .*init of 0")
        self.assertEqual(cases[2].find("error").get("message"), "unreadable: no such file")
        self.assertEqual(list(cases[1]), [])
        lines = ElementTree.fromstring(self.run_it("--format", "junit", "--lines", WRONG).out)
        self.assertEqual(lines[0].find("system-out").text.encode(), WRONG_TEXT)


class Join(Launching):
    def test_runs_put_together(self):
        first, second = self.run_it(*EXAMPLES).out, self.run_it(GOOD, "missing").out
        parts = [self.file("1", first), self.file("2", second)]
        self.due(self.run_it("join", *parts), 2, EXAMPLE_ROWS + good_row() + miss_row("missing") + total(12, 120, 5, 1, 3),
                 "glubotar: refused: examples/drop_out.trace 14:5, and 4 more steps\n", "unreadable: missing")
        self.due(self.run_it("join", data=first * 2), 1, EXAMPLE_ROWS * 2 + total(20, 220, 10, 0, 6), "refused")
        self.due(self.run_it("join", "-", data=good_row() + total(1, 10, 0, 0, 0)), 0, good_row() + total(1, 10, 0, 0, 0))

    def test_an_output_that_is_not_whole(self):
        whole = self.run_it(*EXAMPLES).out
        lines = whole.splitlines(keepends=True)
        parts = {"no total": b"".join(lines[:-1]), "a line less": b"".join(lines[1:]), "empty": b"", "cut": whole[:-1],
                 "cut in a line": whole[:200], "text": WRONG_TEXT, "failed": self.run_it("--failed", *EXAMPLES).out,
                 "counts without a step": row("a", 1, 1, "-") + total(1, 1, 1, 0, 1), "nothing": total(0, 0, 0, 0, 0),
                 "whole, then a line cut": whole + b"x", "whole, then no total": whole + good_row(),
                 "whole, then nothing": whole + total(0, 0, 0, 0, 0), "a huge number": row("a", "1" * 5000, 0, "-")}
        for name, part in parts.items():
            with self.subTest(part=name):
                self.due(self.run_it("join", self.file("ok", whole), self.file("bad", part)), 2, b"",
                         "no whole output of a run", "/bad")
        self.due(self.run_it("join", "-", "-", data=whole), 2, b"", "standard input is named more than once")
        self.due(self.run_it("join", self.work / "nothing"), 2, b"", "an output can't be read: ", "nothing: no such file")


class NothingIsLost(Launching):
    def many(self, count):
        """So many traces of some two hundred bytes of name: many times one command line."""
        folder = self.work / ("0" * 190)
        folder.mkdir()
        (folder / "0").write_bytes((ROOT / WRONG).read_bytes())
        for name in range(1, count):
            os.link(folder / "0", folder / str(name))
        return [f"{folder}/{name}" for name in range(count)]

    def test_three_thousand_traces(self):
        names = self.many(3000)
        due = b"".join(map(wrong_row, names)) + total(3000, 6000, 3000, 0, 3000)
        listed = self.file("list", "\n".join(names).encode())
        self.due(self.run_it("--from", listed), 1, due, "/0 3:14, and 2999 more")
        self.due(self.run_it("--jobs", "3", *names), 1, due, "/0 3:14, and 2999 more")

    def test_a_full_temporary_folder(self):
        names = self.many(2000)
        due = b"".join(map(wrong_row, names)) + total(2000, 4000, 2000, 0, 2000)
        listed = self.file("list", "\n".join(names).encode())
        full = limits(resource.RLIMIT_FSIZE, 0)  # no file can be written, wherever
        self.environment["TMPDIR"] = str(self.work / "no such folder")
        self.due(self.run_it("--from", listed, preexec_fn=full), 1, due, "and 1999 more")

    def test_few_open_files(self):
        names = [WRONG] * 200
        few = limits(resource.RLIMIT_NOFILE, 32)
        self.due(self.run_it("--jobs", "1", *names, preexec_fn=few), 1, wrong_row() * 200 + total(200, 400, 200, 0, 200), "refused")
        ran = self.run_it("--jobs", "30", *names, preexec_fn=few)
        if ran.status != 1:  # too few for so many at once: it is said
            self.assertEqual(ran.status, 2)
            self.assertIn("the checker can't be started", ran.err)

    def unhurried(self, *words, pieces):
        """A run whose input and output are pipes that don't block, and whose input comes in pieces."""
        (reads, writes), (out, there) = os.pipe(), os.pipe()
        for end in (reads, there):
            os.set_blocking(end, False)
        with subprocess.Popen(self.words(*words), cwd=ROOT, env=self.environment, stdin=reads, stdout=there,
                              stderr=subprocess.PIPE) as process:
            os.close(reads)
            os.close(there)
            for piece in pieces:
                time.sleep(0.3)
                os.write(writes, piece)
            os.close(writes)
            time.sleep(0.3)
            with open(out, "rb") as output:
                written = output.read()
            return Ran(process.wait(), written, "")

    def test_pipes_that_do_not_block(self):
        two = [f"{GOOD}\n".encode(), f"{WRONG}\n".encode()]
        ran = self.unhurried("--from", "-", pieces=two)
        self.assertEqual((ran.status, ran.out), (1, good_row() + wrong_row() + total(2, 12, 1, 0, 1)))
        trace = (ROOT / WRONG).read_bytes()
        for command in ((), ("explain",), ("show",)):
            ran = self.unhurried(*command, pieces=[trace[:3], trace[3:]])
            self.assertEqual(ran.out, self.run_it(*command, data=trace).out)
        run = good_row() + total(1, 10, 0, 0, 0)
        ran = self.unhurried("join", pieces=[run, wrong_row() + total(1, 2, 1, 0, 1)])
        self.assertEqual((ran.status, ran.out), (1, good_row() + wrong_row() + total(2, 12, 1, 0, 1)))
        longest = self.file("longest", b"\1" + b"\3\0\0\x20\0" * 13107)
        ran = self.unhurried("--lines", longest, longest, pieces=[b""])
        self.assertEqual((ran.status, ran.out), (0, self.run_it("--lines", longest, longest).out))

    def test_a_write_that_fails_when_all_is_written(self):
        output = streams.Output()
        with unittest.mock.patch("os.close", side_effect=OSError(5, "Input/output error")):
            self.assertRaisesRegex(Failure, "the output can't be written: input/output error", output.close)

    @unittest.skipUnless(os.path.exists("/dev/full"), "there is no device that is always full")
    def test_a_full_output(self):
        for words in ([WRONG], [WRONG, GOOD], ["--lines", WRONG, GOOD], ["--format", "json", WRONG], ["--format", "junit", WRONG],
                      ["explain", WRONG], ["show", WRONG], ["asm", WRONG + ".txt"], ["--help"], ["--version"]):
            with self.subTest(words=words), open("/dev/full", "wb") as full:
                self.due(self.run_it(*words, stdout=full), 2, b"", "glubotar: the output can't be written: no space left on device\n")

    def test_a_reader_that_stops_early(self):
        names = self.many(1000)
        listed = self.file("list", "\n".join(names).encode())
        with subprocess.Popen(self.words("--jobs", "2", "--lines", "--from", listed), stdout=subprocess.PIPE, stderr=subprocess.PIPE,
                              env=self.environment) as process:
            first = process.stdout.readline()
            process.stdout.close()
            self.assertEqual((first, process.stderr.read()), (os.fsencode(names[0]) + b"\t" + WRONG_TEXT[:18], b""))
            self.assertEqual(process.wait(), -13)  # by SIGPIPE, as other programs


if __name__ == "__main__":
    unittest.main()
