"""Tests of tools/map: python3 tests/map_test.py"""
import os
import pathlib
import subprocess
import sys
import tempfile
import unittest

TOOL = pathlib.Path(__file__).resolve().parent.parent / "tools" / "map"

CRATES = """# the ground
low:
# 01 "Bytes"
mid: low io
end: low mid io os
side: low
# the top
top staticlib: low mid end side os
"""

DRAWN = """```mermaid
flowchart TB
    subgraph layer1["the ground"]
        low
    end
    subgraph layer2["01 #quot;Bytes#quot;"]
        mid
        end_[end]
        side
    end
    subgraph layer3["the top"]
        top
    end
    low --> mid & side
    mid --> end_
    end_ --> top
    side --> top
```
"""


class Tree(unittest.TestCase):
    def setUp(self) -> None:
        folder = tempfile.TemporaryDirectory()
        self.addCleanup(folder.cleanup)
        self.root = pathlib.Path(folder.name)
        self.readme = self.root / "README.md"
        self.put("before\n<!-- map -->\nold\n<!-- /map -->\nafter\n", CRATES)

    def put(self, readme: str, crates: str) -> None:
        self.readme.write_text(readme, encoding="utf-8")
        (self.root / "crates.txt").write_text(crates, encoding="utf-8")

    def run_tool(self, *args: str) -> "subprocess.CompletedProcess[str]":
        return subprocess.run([sys.executable, str(TOOL), "--root", str(self.root), *args],
                              capture_output=True, text=True, check=False)


class Drawing(Tree):
    def test_layers_and_the_arrows_that_do_not_follow(self) -> None:
        made = self.run_tool()
        self.assertEqual((made.returncode, made.stdout, made.stderr), (0, DRAWN, ""))

    def test_a_circle_and_a_bad_line_are_named(self) -> None:
        for crates, said in (("a: b\nb: a\n", "a is below itself"), ("a:\na:\n", "crates.txt:2:"),
                             ("a\n", "crates.txt:1:"), (":\n", "crates.txt:1:"),
                             ("a library: b\n", "crates.txt:1:"), ("a:\na staticlib:\n", "crates.txt:2:")):
            self.put("", crates)
            made = self.run_tool()
            self.assertEqual((made.returncode, made.stdout), (1, ""))
            self.assertIn(said, made.stderr)

    def test_an_output_that_is_full_is_told(self) -> None:
        with open("/dev/full", "w", encoding="utf-8") as full:
            made = subprocess.run([sys.executable, str(TOOL)], stdout=full, stderr=subprocess.PIPE,
                                  text=True, check=False)
        self.assertEqual(made.returncode, 1)
        self.assertIn("can't be written", made.stderr)


class Readme(Tree):
    def test_written_and_then_current(self) -> None:
        self.assertEqual(self.run_tool("--check").returncode, 1)
        self.readme.chmod(0o640)
        self.assertEqual(self.run_tool("--write").returncode, 0)
        self.assertEqual(self.readme.read_text(encoding="utf-8"),
                         f"before\n<!-- map -->\n{DRAWN}<!-- /map -->\nafter\n")
        self.assertEqual(self.readme.stat().st_mode & 0o777, 0o640)
        self.assertEqual(self.run_tool("--check").returncode, 0)
        self.assertEqual(sorted(os.listdir(self.root)), ["README.md", "crates.txt"])

    def test_another_map_is_told_and_left(self) -> None:
        before = self.readme.read_text(encoding="utf-8")
        made = self.run_tool("--check")
        self.assertEqual((made.returncode, made.stdout), (1, ""))
        self.assertIn("tools/map --write", made.stderr)
        self.assertEqual(self.readme.read_text(encoding="utf-8"), before)

    def test_markers_are_there_once_and_in_order(self) -> None:
        for page in ("", "<!-- map -->", "<!-- /map --><!-- map -->", "<!-- map --><!-- map --><!-- /map -->"):
            self.put(page, CRATES)
            made = self.run_tool("--write")
            self.assertEqual(made.returncode, 1)
            self.assertIn("once each", made.stderr)
            self.assertEqual(self.readme.read_text(encoding="utf-8"), page)

    def test_a_page_that_is_missing_is_told(self) -> None:
        self.readme.unlink()
        made = self.run_tool("--check")
        self.assertEqual(made.returncode, 1)
        self.assertIn("README.md can't be read", made.stderr)


if __name__ == "__main__":
    unittest.main()
