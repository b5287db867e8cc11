"""Tests of the text form and of the traces that are kept: python3 tests/text_form_test.py"""
import pathlib
import random
import sys
import time
import unittest

ROOT = pathlib.Path(__file__).resolve().parent.parent
sys.dont_write_bytecode = True
sys.path.insert(0, str(ROOT))

from launcher import text_form  # noqa: E402


def asm(text):
    data, complaints = text_form.asm(text.encode(), "t")
    assert not complaints, complaints
    return data


class RoundTrip(unittest.TestCase):
    def back(self, data):
        self.assertEqual(asm(text_form.show(data)), data)
        self.assertEqual(asm(text_form.show(data, numbered=True)), data)

    def test_every_kind_with_any_body(self):
        dice = random.Random(1)
        for kind, _, fields, *_ in text_form.KINDS:
            size = 1 + sum(text_form.WIDTH[f] for f in fields)
            bodies = [bytes(size), b"\xff" * size] + [dice.randbytes(size) for _ in range(300)]
            for body in bodies:
                text = text_form.show(b"\x20" + bytes([kind]) + body)
                self.assertNotIn(".byte", text)
                self.back(b"\x20" + bytes([kind]) + body)

    def test_every_selector(self):
        for selector in range(256):
            self.back(bytes([1, 5, 0, 3, selector, 0xEF, 0xBE, 0xAD, 0xDE]))

    def test_every_first_byte_and_every_kind_alone(self):
        for byte in range(256):
            self.back(bytes([byte]))
            self.back(bytes([1, byte]))

    def test_every_cut(self):
        dice = random.Random(2)
        for kind, _, fields, *_ in text_form.KINDS:
            size = 2 + sum(text_form.WIDTH[f] for f in fields)
            whole = bytes([4, 1, 0, kind]) + dice.randbytes(size - 1)
            for end in range(1, len(whole) + 1):
                self.back(whole[:end])

    def test_random_bytes(self):
        dice = random.Random(3)
        for _ in range(3000):
            self.back(dice.randbytes(dice.randrange(1, 60)))

    def test_random_bytes_of_known_kinds(self):
        dice = random.Random(4)
        for _ in range(1000):
            data = bytearray([dice.randrange(256)])
            for _ in range(dice.randrange(20)):
                kind, _, fields, *_ = dice.choice(text_form.KINDS)
                data += bytes([kind])
                data += dice.randbytes(1 + sum(text_form.WIDTH[f] for f in fields))
            self.back(bytes(data[:max(1, len(data) - dice.randrange(3))]))

    def test_the_longest_trace(self):
        for head in (b"\x20", b"\x21"):
            data = head + b"\x01\x00" * 32767 + b"\x02"
            self.assertEqual(len(data), text_form.MOST_BYTES)
            self.back(data)


class Text(unittest.TestCase):
    def test_lengths_of_document_01(self):
        bodies = {1: 1, 2: 2, 3: 4, 4: 4, 5: 7, 6: 9, 7: 7, 8: 3, 9: 7, 10: 7,
                  11: 7, 12: 7, 13: 7, 14: 7, 15: 7, 16: 11, 17: 4, 18: 9, 19: 7}
        self.assertEqual(
            {kind: 1 + sum(text_form.WIDTH[f] for f in fields)
             for kind, _, fields, *_ in text_form.KINDS}, bodies)

    def test_the_case_of_document_01(self):
        text = ("warps 2\nw0: barrier.sync 3\nw1: barrier.sync 3\n"
                "w0: mbarrier.init [0], 0\n")
        data = bytes.fromhex("020200030201030700000000000000")
        self.assertEqual(asm(text), data)
        self.assertEqual(text_form.show(data), text)

    def test_lines_are_shown_as_they_are_written(self):
        text = """warps 3
w0: exit
w1: barrier.sync 1, 64
w1: barrier.arrive 200, 33
w1: barrier.red.popc 1, !0x0000000f
w1: barrier.red.and 1, 96, 0xffffffff
w1: barrier.red.sel7 1, 0x00000001
w255: mbarrier.arrive_drop.noComplete [505], 0
w1: mbarrier.test_wait [16], token(1, 16, 3)
w1: mbarrier.test_wait [16], 0x400000000000000
w1: mbarrier.test_wait.parity [16], 2
w1: mbarrier.pending_count token(0, 504, 1048575)
# no such kind: a checker reads no further than this
.byte 0x14, 0x00
"""
        self.assertEqual(text_form.show(asm(text)), text)

    def test_shorter_ways_to_write_the_same(self):
        for short, full in (
                ("w0: mbarrier.arrive [8]", "w0: mbarrier.arrive [8], 1"),
                ("w0: mbarrier.arrive_drop [0x8]", "w0: mbarrier.arrive_drop [8], 1"),
                ("w0 :\texit", "w0: exit"),
                ("w0: barrier.red.sel4 1, 1", "w0: barrier.red.popc 1, ! 1"),
                ("w0: mbarrier.pending_count 69206019",
                 "w0: mbarrier.pending_count token( 1,16 , 3 )")):
            self.assertEqual(asm(f"warps 1\n{short}"), asm(f"warps 1\n{full}"))

    def test_comments_blank_lines_and_line_ends(self):
        self.assertEqual(asm("# a\r\n\r\n  warps 1 # b\r\nw0: exit#c\r\n"), b"\1\1\0")
        self.assertEqual(asm("warps 1 # a\rw0: exit # b\rw0: exit"), b"\1\1\0\1\0")
        self.assertEqual(asm("# f\u00fcr zwei\nwarps\u00a02"), b"\2")

    def test_numbers_of_steps(self):
        self.assertEqual(text_form.show(b"\1\1\0\1\0", numbered=True),
                         "warps 1\nw0: exit  # 1\nw0: exit  # 2\n")
        self.assertEqual(text_form.show(b"\1\1\0\2", numbered=True),
                         "warps 1\nw0: exit  # 1\n# a step of 3 bytes, cut: a checker reads no further than this  # 2\n"
                         ".byte 0x02\n")

    def test_a_number_of_warps_that_no_block_has(self):
        self.assertEqual(text_form.show(b"\x28\1\0"),
                         "# 40 is no number of warps, which is 1 to 32: a checker reads no further than this\n"
                         ".byte 0x28, 0x01, 0x00\n")
        self.assertIn("than this  # 0\n", text_form.show(b"\0", numbered=True))
        self.assertEqual(asm(".byte 40\nw0: exit"), b"\x28\1\0")

    def test_an_empty_trace_and_one_that_is_too_long(self):
        for numbered in (False, True):
            self.assertRegex(text_form.show(b"", numbered), r"\A# an empty trace.*\n\Z")
        text = text_form.show(b"\1" + b"\1\0" * 32768)
        self.assertTrue(text.startswith(
            "# 65,537 bytes: the checker refuses more than 65,536 as too long (21)\nwarps 1\nw0: exit\n"))
        self.assertEqual(text.count("\n"), 2 + 32768)

    def test_steps_and_their_fields(self):
        data = asm("warps 2\nw1: exit\nw0: barrier.red.and 1, 64, !0xff\n.byte 0x14, 0x01, 0x00")
        self.assertEqual([step.hex() for step in text_form.steps(data)], ["0101", "060001054000ff000000"])
        self.assertEqual(text_form.values_of(data[3:13]),
                         {"warp": 0, "barrier": 1, "selector": 5, "threads": 64, "mask": 255})
        for none in (b"", b"\0\1\0", b"\x21\1\0", b"\1", b"\1\2\0"):
            self.assertEqual(list(text_form.steps(none)), [])

    def test_the_grammar_names_every_step(self):
        grammar = text_form.grammar()
        for kind in text_form.KINDS:
            self.assertIn(f"\n    {kind.name}", grammar)
        self.assertIn("\n    barrier.red.{popc,and,or} barrier, threads, {!}mask\n", grammar)
        self.assertLessEqual(max(map(len, grammar.splitlines())), 88)
        example = [line[4:] for line in grammar.partition("\nSteps:")[0].splitlines() if line.startswith("    ")]
        self.assertEqual(len(list(text_form.steps(asm("\n".join(example))))), len(example) - 1)


class Errors(unittest.TestCase):
    CASES = (
        ("w0: exit", 1, "warps N"),
        ("warps 1\nwarps 1", 2, "warps N"),
        (".byte 1\nwarps 1", 2, "warps N"),
        ("warps 0", 1, "1 to 32 warps, not 0; `.byte 0` as"),
        ("\nwarps 0x28\nw0: nothing", 2, "1 to 32 warps, not 40; `.byte 40` as the first statement makes"),
        ("warps 256", 1, "1 to 32 warps, not 256."),
        ("warps " + "9" * 5000, 1, "64 bits"),
        ("warps", 1, "number"),
        ("warps -1", 1, "number"),
        ("warps 1\n\n# c\nw0: nothing", 4, "no step `nothing`"),
        ("warps 1\nw0: barrier.red 1, 1", 2, "no step `barrier.red`"),
        ("warps 1\nw0: barrier.red.xor 1, 1", 2, "no step"),
        ("warps 1\nw0: barrier.red.sel256 1, 1", 2, "8 bits"),
        ("warps 1\nw0: barrier.red.sel3 1, !1", 2, "no step `barrier.red.sel3` with a !"),
        ("warps 1\nw0: barrier.red.popc 1, !!1", 2, "number"),
        ("warps 1\nw0: barrier.red.popc", 2, "takes barrier, {!}mask or barrier, threads, {!}mask"),
        ("warps 1\nw0: barrier.sync", 2, "takes barrier or barrier, threads"),
        ("warps 1\nw0: exit 1", 2, "takes no operand"),
        ("warps 1\nw0: mbarrier.init [8]", 2, "takes [address], count"),
        ("warps 1\nw0: mbarrier.init 8, 1", 2, "brackets"),
        ("warps 1\nw0: mbarrier.init [8], 4294967296", 2, "32 bits"),
        ("warps 1\nw0: mbarrier.init [65536], 1", 2, "16 bits"),
        ("warps 1\nw0: barrier.sync 0, 0x", 2, "number"),
        ("warps 1\nw0: barrier.sync 256", 2, "8 bits"),
        ("warps 1\nw0: mbarrier.pending_count " + "9" * 5000, 2, "64 bits"),
        ("warps 1\nw0: mbarrier.pending_count token(0, 4, 0)", 2, "multiple of 8"),
        ("warps 1\nw0: mbarrier.pending_count token(0, 8)", 2, "token(phase"),
        ("warps 1\nw256: exit", 2, "8 bits"),
        ("warps 1\nexit", 2, "wN:"),
        ("warps 1\nw0: barrier.sync 0,", 2, "threads is missing"),
        ("warps 1\n.byte", 2, "byte is missing"),
        (".byte 1,", 1, "byte is missing"),
        ("warps 1\n.byte 0x00, 256", 2, "8 bits"),
    )

    def test_line_and_sentence(self):
        for text, line, part in self.CASES:
            with self.subTest(text=text[:60]):
                data, complaints = text_form.asm(text.encode(), "kernel.txt")
                self.assertEqual(data, b"")
                self.assertEqual(len(complaints), 1)
                self.assertTrue(complaints[0].startswith(f"kernel.txt:{line}: "))
                self.assertIn(part, complaints[0])
                self.assertTrue(complaints[0].endswith("."))

    def test_every_bad_line_is_named(self):
        _, complaints = text_form.asm(b"warps 1\nw0: a\nw0: exit\nw0: b\n", "t")
        self.assertEqual([c.split(":")[1] for c in complaints], ["2", "4"])

    def only(self, text, complaint):
        self.assertEqual(text_form.asm(text, "t"), (b"", [complaint]))

    def test_no_statement(self):
        for text in (b"", b"\n", b"# nothing\n\n", text_form.show(b"").encode()):
            self.only(text, "t: The text has no statement; a text begins with `warps N`, the number of warps.")

    def test_a_byte_order_mark(self):
        for code in ("utf-8-sig", "utf-16"):
            self.only("warps 1\nw0: nothing\n".encode(code),
                      "t: The text begins with a byte-order mark; save it as UTF-8 without one.")
        self.only(b"\xfe\xff\0w", "t: The text begins with a byte-order mark; save it as UTF-8 without one.")

    def test_a_trace_in_place_of_a_text(self):
        for data in (b"\1", b"\2\2\0\3\2\1\3", b"\x20\x07\xff\xff", asm("warps 1\nw0: mbarrier.init [16], 3")):
            self.only(data, "t: This is no text; it looks like a trace, and `glubotar show` shows one.")

    def test_bytes_of_no_text(self):
        for text, line, byte in ((b"warps 1\n# f\xfcr\nw0: nothing", 2, "fc"), (b"\n\n# \xfc", 3, "fc"),
                                 (b"warps 1\0", 1, "00"),
                                 (b"warps 1\r\n\r\n\x1b[0m", 3, "1b"), (b"warps 1\n\x7f", 2, "7f"),
                                 (b"# \xc2\x9b", 1, "9b"), (b"# \xe2\x82", 1, "e2"), (b"\xff\0", 1, "ff")):
            self.only(text, f"t:{line}: This is no text: no text in UTF-8 has the byte 0x{byte} here.")

    def test_too_long(self):
        text = b"warps 1\n" + b"w0: exit\n" * 32768
        self.only(text, "t: The trace would have 65,537 bytes, and 65,536 is the most.")
        self.only(text + b"w0: nothing", "t:32770: There is no step `nothing`.")

    def test_a_long_line_takes_no_long_time(self):
        start = time.monotonic()
        self.assertEqual(asm(".byte " + ", ".join(["0x01"] * 65536)), b"\1" * 65536)
        text_form.asm(b"warps 1\nw0: exit " + b"(," * 65536, "t")
        self.assertLess(time.monotonic() - start, 5)


class Kept(unittest.TestCase):
    def kept(self, pattern):
        folders = [ROOT / "examples", ROOT / "tests" / "traces"]
        files = sorted(file for folder in folders for file in folder.glob(pattern))
        self.assertTrue(files)
        return files

    def test_texts_and_bytes_agree(self):
        for text in self.kept("*.trace.txt"):
            with self.subTest(text=text.name):
                made = text_form.asm(text.read_bytes(), text.name)
                self.assertEqual(made, (text.with_suffix("").read_bytes(), []))

    def test_the_program_is_run_on_each(self):
        crate = ROOT / "crates" / "glubotar"
        output = (crate / "stdout").read_text()
        for trace_file in self.kept("*.trace"):
            with self.subTest(trace=trace_file.name):
                self.assertEqual((crate / "data" / trace_file.name).read_bytes(), trace_file.read_bytes())
                answer = trace_file.with_suffix(".expected").read_text()
                self.assertIn(f"file {trace_file.name}\n{answer}", output)


if __name__ == "__main__":
    unittest.main()
