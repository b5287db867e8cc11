"""Tests of what ./glubotar shows on a terminal: columns, colours, progress."""
import fcntl
import os
import pty
import re
import struct
import subprocess
import termios
import unittest

from build_test import BUILT, WithKit
from launching import EXAMPLES, GOOD, WRONG, Launching

COLOUR = re.compile("\x1b\\[[0-9]*m")


def on_terminal(words, columns, both=True, **others):
    """What a command writes to a terminal of so many columns: all of it, or its errors alone."""
    here, there = pty.openpty()
    fcntl.ioctl(there, termios.TIOCSWINSZ, struct.pack("HHHH", 24, columns, 0, 0))
    process = subprocess.Popen(words, stdin=subprocess.DEVNULL, stdout=there if both else subprocess.DEVNULL, stderr=there, **others)
    os.close(there)
    written = b""
    while True:
        try:
            piece = os.read(here, 4096)
        except OSError:
            break
        if not piece:
            break
        written += piece
    os.close(here)
    return process.wait(), written.decode().replace("\r\n", "\n")


class Terminal(Launching):
    def shown(self, *words, columns=80, **environment):
        settings = {**self.environment, "TERM": "xterm", **environment}
        return on_terminal(self.words(*words), columns, cwd=self.launcher.parent, env=settings)

    def rows(self, text):
        """The lines that stay, without a progress that was erased."""
        return [line.rpartition("\r")[2] for line in text.split("\n")]

    def test_refused_ones_last_and_in_colour(self):
        status, text = self.shown(*EXAMPLES, "missing")
        self.assertEqual(status, 2)
        rows = self.rows(text)
        self.assertEqual(rows[0].split(), ["trace", "accepted", "refused", "first"])
        names = [COLOUR.sub("", row).split()[0] for row in rows[1:12]]
        late = ["examples/drop_out.trace", "examples/fault_restart.trace", "examples/whole_case.trace", "missing"]
        self.assertEqual(names, [name for name in EXAMPLES if name not in late] + late)
        self.assertEqual([bool(COLOUR.match(row)) for row in rows[1:12]], [False] * 7 + [True] * 4)
        self.assertEqual(rows[12], "11 traces, 3 refused, 1 unreadable, 110 steps accepted, 5 refused")
        self.assertEqual(len({len(COLOUR.sub("", row)) for row in rows[:12]}), 1)

    def test_no_colour(self):
        for settings in ({"NO_COLOR": "1"}, {"TERM": "dumb"}):
            self.assertNotIn("\x1b", self.shown(*EXAMPLES, **settings)[1])
        self.assertIn("\x1b", self.shown(*EXAMPLES, NO_COLOR="")[1])

    def test_one_trace_and_other_forms_are_as_in_a_pipe(self):
        self.assertTrue(self.shown(WRONG)[1].startswith("1 ok 0 0 00000000\n2 ok 0 1 00000003\n3 no 14\nend 2 1\n"))
        self.assertIn(f"{WRONG}\t2\t1\t3:14\n", self.shown("--format", "tsv", WRONG, GOOD)[1])

    def test_nobody_waits_in_silence(self):
        here, there = pty.openpty()
        self.addCleanup(os.close, here)
        self.addCleanup(os.close, there)
        for command in ((), ("explain",), ("join",), ("show",), ("asm",)):
            self.due(self.run_it(*command, stdin=there), 2, b"", "nothing is named, and standard input is a terminal")

    def test_a_count_that_is_erased(self):
        for columns in (80, 20, 1):
            words = self.words("--jobs", "1", GOOD, GOOD)
            status, text = on_terminal(words, columns, both=False, cwd=self.launcher.parent, env=self.environment)
            self.assertEqual((status, text.split("\r")[-1].strip()), (0, ""))
            self.assertIn("glubotar: 1 of 2 traces"[:columns - 1], text)
            self.assertTrue(all(len(piece) < columns for piece in text.split("\r")))


class BuildOnTerminal(WithKit):
    def test_crates_are_counted(self):
        self.rt_does("for crate in folds walks text glubotar; do echo noise; echo \"logic=proved functions=1\"; done; " + self.builds)
        status, text = on_terminal(self.words("plain"), 30, both=False, cwd=self.work, env=self.environment)
        self.assertEqual(status, 0)
        self.assertIn(BUILT, text)
        for count in range(1, 5):
            self.assertIn(f"\rglubotar: {count} of 4 crates", text)
        self.assertEqual(text.split("\r")[-1].strip(), "")


if __name__ == "__main__":
    unittest.main()
