"""Tests of what explain says, and of the page whose sentences it uses: python3 tests/explain_test.py"""
import pathlib
import re
import sys
import time
import unittest

ROOT = pathlib.Path(__file__).resolve().parent.parent
sys.dont_write_bytecode = True
sys.path.insert(0, str(ROOT))

from launcher import text_form  # noqa: E402
from launcher.explain import explained  # noqa: E402
from launcher.sentences import refusals, said_of  # noqa: E402

PAGE = (ROOT / "docs" / "TRACES.md").read_text(encoding="utf-8")
SENTENCES = refusals(PAGE)
CAUTION = ("Nothing is refused. That does not say that the kernel ends: warps that wait to the end\n"
           "of a trace are not refused. ")

# Short sentences, so that these tests hold the form and not the page's words.
PLAIN = {number: (f"why {number}", f"there {number}") for number in range(1, 22)}


def example(name, every=False, sentences=PLAIN):
    path = ROOT / "examples" / name
    return explained(name, path.with_suffix(".trace").read_bytes(),
                     path.with_suffix(".expected").read_bytes(), sentences, every)


def of(trace, text, every=False, sentences=PLAIN):
    return explained("t", trace, text.encode(), sentences, every)


class Page(unittest.TestCase):
    def test_every_refusal_has_a_plain_sentence_and_a_place(self):
        self.assertEqual(sorted(SENTENCES), list(range(1, 22)))
        for number, pair in SENTENCES.items():
            for text in pair:
                with self.subTest(number=number, text=text):
                    self.assertRegex(text, r"\A[a-z\d\"][^`*|\n]*[a-z\d?)]\Z")

    def test_a_step_and_the_whole_trace(self):
        self.assertEqual(said_of(3, SENTENCES[4][0]), "the block has no such warp")
        self.assertEqual(said_of(0, SENTENCES[4][0]), "the block has no warp, or more than 32")
        self.assertEqual(said_of(0, SENTENCES[2][0]), "the trace is empty")
        self.assertEqual(said_of(0, "all"), "all")

    def test_only_the_table_below_the_heading_is_read(self):
        page = ("| 1 | a | b |\n## What a refusal says\n\n| R | x | y |\n|---|---|---|\n| 2 | c d | e |\n\n"
                "## Z\n| 3 | f | g |\n")
        self.assertEqual(refusals(page), {2: ("c d", "e")})
        self.assertEqual(refusals(""), {})

    def test_its_table_of_kinds_is_that_of_the_text_form(self):
        rows = re.findall(r"(?m)^\| ([0-9A-F]{2}) \|[^|]*\|([^|]*)\| `([^`]*)` \|$", PAGE)
        self.assertEqual([int(kind, 16) for kind, _, _ in rows], [kind.byte for kind in text_form.KINDS])
        for kind, body, text in rows:
            made, complaints = text_form.asm(b"warps 1\n" + text.encode(), "page")
            self.assertEqual((complaints, made[1]), ([], int(kind, 16)))
            self.assertEqual(len(made) - 3, sum(map(int, re.findall(r" (\d)\b", body))))

    def test_the_drawn_phase(self):
        """The lines are worked out by hand: init 3; tokens of phase 0 with 3, 2, 1 pending; one of phase 1 with 3."""
        text, said = re.search(r"```\n(warps 3\n.*?)```.*?```\n(.*?)```", PAGE, re.S).groups()
        trace, complaints = text_form.asm(text.encode(), "page")
        self.assertEqual(complaints, [])
        first = 16 // 8 << 20
        values = (0, first + 3, first + 2, first + 1, 0, 1, (1 << 26) + first + 3)
        lines = "".join(f"{at} ok {value} {at == 5:d} 00000000\n" for at, value in enumerate(values, 1))
        made = explained("phase.trace", trace, (lines + "end 7 0\n").encode(), SENTENCES, every=True)
        self.assertEqual(said, "$ ./glubotar asm phase.trace.txt -o phase.trace\n"
                               "$ ./glubotar explain --all phase.trace\n" + made)


class Examples(unittest.TestCase):
    maxDiff = None

    def test_whole_case(self):
        self.assertEqual(example("whole_case"), """\
whole_case: 2 warps, 3 steps: 2 accepted, 1 refused
step 3  w0: mbarrier.init [0], 0
    refused (14) because why 14
    Where to look: there 14
""")
        self.assertEqual(example("whole_case", every=True), """\
whole_case: 2 warps, 3 steps: 2 accepted, 1 refused
step 1  w0: barrier.sync 3
    accepted: warp 0 waits at barrier 3
step 2  w1: barrier.sync 3
    accepted: completes barrier 3; releases warps 0, 1
step 3  w0: mbarrier.init [0], 0
    refused (14) because why 14
    Where to look: there 14
""")

    def test_drop_out(self):
        self.assertEqual(example("drop_out"), """\
drop_out: 3 warps, 17 steps: 15 accepted, 2 refused
step 14  w2: mbarrier.arrive [40], 1
    refused (5) because why 5
    Where to look: there 5
step 15  w0: mbarrier.arrive_drop [40], 2
    refused (14) because why 14
    Where to look: there 14
Look at step 14 first: refusals after the first often follow from it.
""")
        said = example("drop_out", every=True)
        self.assertIn("""\
step 4  w2: barrier.sync 0
    accepted: completes barrier 0; releases warps 0 to 2
step 5  w0: mbarrier.arrive [40], 1
    accepted: gives token(0, 40, 3): phase 0 of the object at 40, 3 pending before it
step 6  w2: mbarrier.arrive_drop [40], 1
    accepted: gives token(0, 40, 2): phase 0 of the object at 40, 2 pending before it
step 7  w2: exit
    accepted
step 8  w1: mbarrier.arrive [40], 1
    accepted: gives token(0, 40, 1): phase 0 of the object at 40, 1 pending before it;
    ends the phase
step 9  w0: mbarrier.test_wait [40], token(0, 40, 3)
    accepted: answers yes, phase 0 is over
""", said)
        self.assertIn("""\
step 13  w1: mbarrier.pending_count token(1, 40, 2)
    accepted: answers 2, the pending count in the token
""", said)

    def test_exit_frees(self):
        self.assertEqual(example("exit_frees"), "exit_frees: 4 warps, 10 steps: 10 accepted, 0 refused\n"
                         + CAUTION + "When it ends, every warp has exited.\n")
        self.assertIn("""\
step 5  w2: exit
    accepted: completes barrier 0; releases warps 0, 1
step 6  w0: barrier.red.popc 4, 0x000000ff
    accepted: warp 0 waits at barrier 4
step 7  w1: exit
    accepted: completes barrier 4; the reduction (popc) gives 8; releases warp 0
step 8  w0: barrier.sync 5, 64
    accepted: completes barrier 5; releases warp 0
""", example("exit_frees", every=True))

    def test_complement(self):
        said = example("complement", every=True)
        values = re.findall(r"the reduction \((\w+)\) gives (\d+)", said)
        self.assertEqual(values, [("popc", "4"), ("and", "1"), ("and", "0"), ("or", "1"), ("or", "0"), ("popc", "16")])
        self.assertTrue(said.endswith("When it ends, warps 0, 1 have not exited.\n"))

    def test_double_buffer(self):
        said = example("double_buffer", every=True)
        self.assertIn("step 9  w0: mbarrier.complete_tx [0], 64\n    accepted\n", said)
        self.assertIn("    accepted: answers no, the phase of parity 0 is not over\n", said)
        self.assertIn("step 11  w0: mbarrier.complete_tx [0], 64\n    accepted: ends the phase\n", said)
        self.assertIn("    accepted: answers yes, the phase of parity 1 is over\n", said)

    def test_refusals(self):
        path = ROOT / "tests" / "traces" / "refusals.trace"
        said = explained("refusals", path.read_bytes(), path.with_suffix(".expected").read_bytes(), SENTENCES)
        self.assertTrue(said.startswith("refusals: 2 warps, 31 steps: 7 accepted, 24 refused\nstep 1  w2: exit\n"))
        self.assertTrue(said.endswith("""\
step 31  .byte 0x14, 0x01, 0x00
    refused (1) because its first byte names no kind of step
    Where to look: a damaged trace; the check ends here
    The byte 0x14 begins no kind of step. From it on, 3 bytes of the trace are not read.
Look at step 1 first: refusals after the first often follow from it.
"""))
        self.assertEqual(said.count("\nstep "), 24)
        self.assertEqual(said.count("Look at step"), 1)

    def test_no_line_is_too_wide_and_no_mask_is_left(self):
        for path in sorted((ROOT / "examples").glob("*.expected")) + sorted((ROOT / "tests/traces").glob("*.expected")):
            said = explained(path.stem, path.with_suffix(".trace").read_bytes(), path.read_bytes(), SENTENCES, True)
            self.assertLessEqual(max(map(len, said.splitlines())), 88)
            self.assertIsNone(re.search(r"\b[0-9a-f]{8}$", said, re.M))


class Ends(unittest.TestCase):
    def test_the_whole_trace(self):
        self.assertEqual(of(b"", "0 no 2\nend 0 1\n", sentences=SENTENCES), """\
t: 0 bytes; refused as a whole, no step is read
    refused (2) because the trace is empty
    Where to look: a trace that was never written
""")
        self.assertEqual(of(b"\x28\1\0", "0 no 4\nend 0 1\n", sentences=SENTENCES), """\
t: 3 bytes, 40 warps; refused as a whole, no step is read
    refused (4) because the block has no warp, or more than 32
    Where to look: the trace's first byte
""")
        self.assertTrue(of(b"\1" + b"\1\0" * 32768, "0 no 21\nend 0 1\n").startswith(
            "t: more than 65,536 bytes, 1 warp; refused as a whole, no step is read\n    refused (21) because why 21\n"))

    def test_a_cut_step(self):
        self.assertEqual(of(b"\1\7\0\0", "1 no 2\nend 0 1\n"), """\
t: 1 warp, 1 step: 0 accepted, 1 refused
step 1  .byte 0x07, 0x00, 0x00
    refused (2) because why 2
    Where to look: there 2
    The byte 0x07 begins mbarrier.init, a step of 8 bytes. From it on, 3 bytes of the
    trace are not read.
""")
        self.assertIn(".byte" + " 0xff," * 8 + " ..\n", of(b"\1" + b"\xff" * 9, "1 no 1\nend 0 1\n"))
        self.assertIn("1 byte of the trace is not read.", of(b"\1\xff", "1 no 1\nend 0 1\n"))

    def test_who_is_left(self):
        self.assertEqual(of(b"\1", "end 0 0\n"), "t: 1 warp, 0 steps: 0 accepted, 0 refused\n"
                         + CAUTION + "When it ends, warp 0 has not exited.\n")
        for trace, lines, left in (
                (b"\2\2\0\0", "1 ok 0 0 00000000\nend 1 0\n",
                 "warps 0, 1 have not exited, and warp 0 still waits at a barrier."),
                (b"\5\2\0\0\2\3\0", "1 ok 0 0 00000000\n2 ok 0 0 00000000\nend 2 0\n",
                 "warps 0 to 4 have not exited, and warps 0, 3 still wait at a barrier."),
                (b"\3\1\1\2\0\0\2\2\0", "1 ok 0 0 00000000\n2 ok 0 0 00000000\n3 ok 0 1 00000005\nend 3 0\n",
                 "warps 0, 2 have not exited.")):
            self.assertTrue(" ".join(of(trace, lines).split()).endswith(f"When it ends, {left}"))

    def test_released_warps(self):
        for mask, warps in (("00000001", "warp 0"), ("00000003", "warps 0, 1"), ("ffffffff", "warps 0 to 31"),
                            ("8000010f", "warps 0 to 3, 8, 31"), ("00000036", "warps 1, 2, 4, 5")):
            self.assertIn(f"; releases {warps}\n", of(b"\x20\4\7\0\x40\0", f"1 ok 0 1 {mask}\nend 1 0\n", every=True))

    def test_a_token_that_is_none(self):
        self.assertIn("step 1  w0: mbarrier.pending_count 0x400000000000000\n    refused (19)",
                      of(b"\1\x12\0" + (1 << 58).to_bytes(8, "little"), "1 no 19\nend 0 1\n"))

    def test_every_kind_is_explained(self):
        for kind in text_form.KINDS:
            trace = bytes([1, kind.byte]) + bytes(text_form.SIZE[kind.byte] - 1)
            for done in "01":
                said = of(trace, f"1 ok 0 {done} 00000000\nend 1 0\n", every=True)
                self.assertIn(f"\nstep 1  w0: {kind.name}", said)
                self.assertIn("\n    accepted", said)

    def test_the_longest_trace_takes_no_long_time(self):
        lines = "1 ok 0 0 00000000\n" + "".join(f"{at} no 5\n" for at in range(2, 32768)) + "end 1 32766\n"
        start = time.monotonic()
        said = of(b"\1" + b"\1\0" * 32767, lines, every=True, sentences=SENTENCES)
        self.assertEqual(said.count("refused (5)"), 32766)
        self.assertLess(time.monotonic() - start, 10)


class Misfits(unittest.TestCase):
    OK = "{} ok 0 0 00000000\n".format

    def test_lines_that_are_not_of_the_trace(self):
        one, cut = b"\1\1\0", b"\1\1\0\2"
        for trace, text in (
                (one, ""), (one, "\n"), (one, "end 0 0\n"), (one, self.OK(1)), (one, self.OK(2) + "end 1 0\n"),
                (one, self.OK(1) + self.OK(2) + "end 2 0\n"), (one, self.OK(1) + "end 2 0\n"),
                (one, self.OK(1) + "end 0 1\n"), (one, "1 no 2\nend 0 1\n"), (one, "0 no 4\nend 0 1\n"),
                (one, self.OK(1) + "2 no 2\nend 1 1\n"), (one, "1 ok 0 2 00000000\nend 1 0\n"),
                (one, "1 no\nend 0 1\n"), (one, "\u00fc\n" + self.OK(1) + "end 1 0\n"), (one, "1 no 22\nend 0 1\n"),
                (cut, self.OK(1) + "end 1 0\n"), (cut, self.OK(1) + "2 no 5\nend 1 1\n"),
                (cut, "1 no 2\n2 no 2\nend 0 2\n"), (b"", "end 0 0\n"), (b"\0", "end 0 0\n"),
                (b"\1", "0 no 2\nend 0 1\n"), (b"", self.OK(0) + "end 1 0\n"), (b"", "0 no 2\n1 no 2\nend 0 2\n")):
            with self.subTest(trace=trace, text=text):
                with self.assertRaises(ValueError) as caught:
                    of(trace, text)
                self.assertRegex(str(caught.exception), r"\A[A-Z][^\n]*\.\Z")


if __name__ == "__main__":
    unittest.main()
