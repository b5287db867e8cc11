"""What each refusal says, in the words of docs/TRACES.md, the one place that has them."""
import os
import re
from typing import Dict, Tuple

from launcher.streams import Failure, read_file, reason

HEADING = "## What a refusal says\n"
ROW = re.compile(r"\| *(\d+) *\| *([^|]*[^| ]) *\| *([^|]*[^| ]) *\|")
OF_THE_WHOLE = "; for step 0: "  # parts what is said of a step from what is said of a whole trace


def refusals(page: str) -> Dict[int, Tuple[str, str]]:
    """The page's table: for each number why "the step is refused because ..", and where to look."""
    section = page.partition(HEADING)[2].partition("\n## ")[0]
    rows = filter(None, map(ROW.fullmatch, section.splitlines()))
    return {int(row[1]): (row[2], row[3]) for row in rows}


def read_refusals(root: str) -> Dict[int, Tuple[str, str]]:
    page = os.path.join(root, "docs", "TRACES.md")
    try:
        return refusals(read_file(os.fsencode(page)).decode())
    except OSError as error:
        raise Failure(f"the page on refusals can't be read: {page}: {reason(error)}") from None


def said_of(step: int, sentence: str) -> str:
    """The part of a sentence of the table that speaks of this step; step 0 stands for the whole trace."""
    parts = sentence.split(OF_THE_WHOLE)
    return parts[0] if step else parts[-1]
