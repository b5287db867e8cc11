"""The checker's lines `N ok V D M` and `N no R`, taken apart."""
import re
from typing import NamedTuple, Tuple

from launcher.kinds import MOST_WARPS

LINE = re.compile(r"([0-9]+) (?:ok ([0-9]+) ([01]) ([0-9a-f]{8})|no ([0-9]+))")


class Verdict(NamedTuple):
    """A line of the checker: a refusal's number, or 0 and what the accepted step did."""
    step: int
    refusal: int
    value: int = 0
    done: bool = False
    released: Tuple[int, ...] = ()


def verdict_of(line: str) -> Verdict:
    parts = LINE.fullmatch(line)
    if not parts:
        raise ValueError(f"The checker's line `{line[:40]}` is none that a checker prints.")
    if parts[5]:
        return Verdict(int(parts[1]), int(parts[5]))
    released = tuple(warp for warp in range(MOST_WARPS) if int(parts[4], 16) >> warp & 1)
    return Verdict(int(parts[1]), 0, int(parts[2]), parts[3] == "1", released)
