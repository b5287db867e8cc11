"""Tests of tools/names: python3 tests/names_test.py"""
import pathlib
import subprocess
import sys
import tempfile
import unittest
from typing import Dict, List, Optional

TOOL = pathlib.Path(__file__).resolve().parent.parent / "tools" / "names"
PROOFS = "crates/low/proofs/Rows.antt"

# A small project: two crates with code, definitions, laws and an edit.
TREE = {
    "crates.txt": "# ground\nlow: io\n# above\nhigh_up: low\nfor_c staticlib: low\n",
    "README.md": "# Fake\n",
    "docs/STATEMENTS.md": "# Statements\n",
    "docs/requests/W-1.md": "`gone` and `Gone`\n",
    "tests/peer/run": "",
    "crates/low/stdout": "",
    "crates/low/src/lib.rt": """// A row.
pub const MOST_ROWS: u8 = 3;

pub struct Row {
    pub live: bool,
    private: u32,
}

pub enum Verdict {
    Refused(u8),
    Accepted {
        value: u64,
    },
}

pub mod table;

impl Row {
    pub fn read(self) -> Row
    {
        self
    }
}

fn hidden(o: Row) -> bool
    ensures { true }
{
    true
}

#[unsafe(no_mangle)]
pub extern "C" fn length_for_c(len: usize) -> usize
{
    len
}
""",
    "crates/low/src/table.rt": "pub(crate) fn length_of(kind: u8) -> usize\n{\n    0\n}\n",
    "crates/low/specs/Lib.antt": "pub mod Rows\n",
    "crates/low/specs/Rows.antt": """-- Rows.
use Rattle.std.specs.Prelude.{◌≡◌, ℕ, Bool}

-- data: a definition takes it
pub record State : Type 0 where
  pub tally : ℕ

-- data: a definition answers it
abbrev pub Line : Type 0
Line = Bool × ℕ

unfoldable pub sound_row : State → Line
sound_row x = (true, 0)

-- with parameters
pub record Due (x : State) (n : ℕ) : Type 0 where
  -- each step
  pub each : n ≡ 0

abbrev pub Fits : State → Type 0
Fits x = x .tally ≡ 0

-- a claim
abbrev pub RefusedExactly : Type 0
RefusedExactly =
    (x : State) → sound_row x ≡ (true, 0)

-- a claim that is a record
pub record Example1 : Type 0 where
  pub first : RefusedExactly
""",
    PROOFS: """-- Proofs.
use Rattle.low.specs.Rows as S

mod Inner (x : State) where
  inner_fact : sound_row x ≡ (true, 0)
  inner_fact = refl

pub refused_exactly : S.RefusedExactly
refused_exactly x = inner_fact x

pub example1 : Example1
example1 = record { first = refused_exactly }
""",
    "crates/low/proofs/hidden/Answers.antt": """-- Answers to the goals of a function.
use Rattle.low.proofs.hidden.Goals as goal

pub returns : goal.returns
returns o = refl

pub result_value : goal.result_value
result_value o = refl
""",
    "crates/low/must-fail/row_never_stored.edit": "",
    "crates/high_up/src/main.rt": "fn main() {\n}\n",
}


class Tree(unittest.TestCase):
    def setUp(self) -> None:
        folder = tempfile.TemporaryDirectory()
        self.addCleanup(folder.cleanup)
        self.root = pathlib.Path(folder.name)

    def faults(self, page: str = "", changed: Optional[Dict[str, str]] = None) -> List[str]:
        """What the tool says of the small project with this README and these files changed."""
        for name, text in {**TREE, "README.md": page, **(changed or {})}.items():
            path = self.root / name
            path.parent.mkdir(parents=True, exist_ok=True)
            path.write_text(text, encoding="utf-8")
        made = subprocess.run([sys.executable, str(TOOL), "--root", str(self.root)],
                              capture_output=True, text=True, check=False)
        self.assertEqual(made.stderr, "")
        lines = made.stdout.splitlines()
        self.assertEqual(made.returncode, 1 if lines else 0)
        return lines

    def there(self, *names: str) -> None:
        self.assertEqual(self.faults(" ".join(f"`{name}`" for name in names)), [])

    def missing(self, *names: str) -> None:
        lines = self.faults("\n".join(f"a `{name}` b" for name in names))
        self.assertEqual([line.split("`")[1] for line in lines], list(names), lines)
        for number, line in enumerate(lines, 1):
            self.assertTrue(line.startswith(f"README.md:{number}: "), line)


class Names(Tree):
    def test_code(self) -> None:
        self.there("low::hidden", "low::length_for_c", "low::Row", "low::Row::read", "Row::read", "low::MOST_ROWS",
                   "low::table", "low::table::length_of", "table::length_of", "Verdict::Refused",
                   "io::write_all", "u32::count_ones")
        self.missing("low::shown", "high_up::hidden", "gone::hidden", "Row::hidden", "Verdict::Gone",
                     "low::other::hidden")

    def test_definitions_types_and_fields(self) -> None:
        self.there("sound_row", "Due", "Row", "Refused", "Due.each", "Row.private", "Verdict.value", "MOST_ROWS")
        self.missing("sound_block", "soundRow", "Gone", "Due.tally", "Gone.each", "MOST_WARPS")

    def test_laws_edits_crates_and_words(self) -> None:
        self.there("refused_exactly", "inner_fact", "row_never_stored", "high_up", "for_c", "low", "hidden", "stdout",
                   "example1", "tally")
        self.missing("accepted_exactly", "refused-exactly", "row_stored", "lower", "low_down", "returns", "result_value")

    def test_what_is_called_a_law(self) -> None:
        self.there("low")
        self.assertEqual(self.faults("law `refused_exactly`; one law, `example1`; the laws `inner_fact` and `Row`"), [])
        self.assertEqual(self.faults("law `sound_row`\n\na law, `row_never_stored`"),
                         ["README.md:1: `sound_row`: no law has this name", "README.md:3: `row_never_stored`: no law has this name"])

    def test_paths(self) -> None:
        self.there("low/specs/Rows.antt", "crates/low/src", "tests/peer/run", "./crates.txt", "crates.txt",
                   "specs/", "specs/Rows.antt", "proofs/X.antt", "proofs/FUNCTION/Answers.antt", "Rows.antt",
                   "tests/peer/run short")
        self.missing("low/specs/Gone.antt", "tests/gone", "specs/Gone.antt", "Gone.antt")
        self.assertIn("no such file", self.faults("`tools/gone asm FILE`")[0])

    def test_what_is_no_name(self) -> None:
        self.there("rt must-fail", "rt lib", "--jobs", "-j1", "0 no 21", "r ≡ gone", "N", "FILE", "00000003", "0x0f",
                   "axioms=9", "&mut", "requires", "popc", "parts/*.tsv", "l′", "awk '{print gone}'")
        self.assertEqual(self.faults("    `gone` in an example\n\n```\n`gone`\n```\n"), [])

    def test_names_of_a_file_or_crate(self) -> None:
        file = "`low/specs/Rows.antt`"
        elsewhere = ["README.md:1: `Verdict`: not in low/specs/Rows.antt"]
        self.assertEqual(self.faults(f"{file}: `sound_row`, each `Due`; `Verdict`. `Due` in {file}"), [])
        self.assertEqual(self.faults(f"{file}: `sound_row`, `Verdict`"), elsewhere)
        self.assertEqual(self.faults(f"`Verdict` in {file}"), elsewhere)
        self.assertEqual(self.faults("| `low`: `row_never_stored`; `high_up`: `main` |"), [])
        self.assertEqual(self.faults("| `high_up`: `row_never_stored` |"),
                         ["README.md:1: `row_never_stored`: not in high_up"])

    def test_a_table_of_crates(self) -> None:
        table = ("| crate | what |\n|---|---|\n| `low` | `tally` |\n| `hidden` | |\n\n"
                 "| name |\n|---|\n| `hidden` |\n")
        self.assertEqual(self.faults(table), ["README.md:4: `hidden`: no such crate"])

    def test_pages_that_are_held(self) -> None:
        found = self.faults(changed={"docs/STATEMENTS.md": "`Gone`", "docs/DECISIONS.md": "`gone`",
                                     "docs/requests/W-2.md": "`gone`"})
        self.assertEqual([line.split(":")[0] for line in found], ["docs/DECISIONS.md", "docs/STATEMENTS.md"])

    def test_pages_that_tell_of_names_that_are_gone(self) -> None:
        self.assertEqual(self.faults(changed={"docs/PORT.md": "`gone`", "docs/DESIGN-PASS.md": "`Gone`"}), [])


class Claims(Tree):
    def test_each_claim_has_its_law(self) -> None:
        self.assertEqual(self.faults(), [])

    def test_a_law_that_is_missing(self) -> None:
        self.assertEqual(self.faults(changed={PROOFS: "pub example1 : Example1\n"}),
                         ["crates/low/specs/Rows.antt:24: the claim RefusedExactly has no law refused_exactly"
                          " in crates/low/proofs/"])

    def test_a_law_under_another_name_or_of_another_type(self) -> None:
        found = self.faults(changed={PROOFS: "pub step_refused : RefusedExactly\npub example1 : Due\n"})
        self.assertEqual(len(found), 2, found)
        self.assertTrue(found[0].endswith("; step_refused proves it, at crates/low/proofs/Rows.antt:1"), found[0])
        self.assertIn("the claim Example1 has no law example1", found[1])

    def test_a_law_that_others_cannot_see(self) -> None:
        proofs = TREE[PROOFS].replace("pub example1", "example1")
        self.assertEqual(len(self.faults(changed={PROOFS: proofs})), 1)

    def test_a_law_of_another_crate_does_not_count(self) -> None:
        found = self.faults(changed={PROOFS: "", "crates/high_up/proofs/Rows.antt": TREE[PROOFS]})
        self.assertEqual(len(found), 2, found)


class Size(Tree):
    def test_statements_end_where_a_reader_does(self) -> None:
        self.assertEqual(self.faults(changed={"docs/STATEMENTS.md": "a" * 20_000}), [])
        self.assertEqual(len(self.faults(changed={"docs/STATEMENTS.md": "≡" + "a" * 19_998})), 1)


class Broken(Tree):
    def test_a_file_that_is_missing_is_told(self) -> None:
        made = subprocess.run([sys.executable, str(TOOL), "--root", str(self.root)],
                              capture_output=True, text=True, check=False)
        self.assertEqual((made.returncode, made.stdout), (1, ""))
        self.assertIn("crates.txt can't be read", made.stderr)


if __name__ == "__main__":
    unittest.main()
