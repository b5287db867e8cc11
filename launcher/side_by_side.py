"""Work on many items, some at a time."""
from __future__ import annotations

from collections import deque
from collections.abc import Callable, Iterator
from concurrent.futures import Future, ThreadPoolExecutor
from typing import TypeVar

from launcher.streams import Failure

Item = TypeVar("Item")
Result = TypeVar("Result")


def in_order(work: Callable[[Item], Result], items: list[Item], jobs: int) -> Iterator[Result]:
    """What the work on each item comes to, in the items' order. Only some are begun before their turn, so that what waits to be
    handed out stays small."""
    begun: deque[Future[Result]] = deque()
    pool = ThreadPoolExecutor(jobs)
    try:
        for item in items:
            if len(begun) == 2 * jobs:
                yield begun.popleft().result()
            try:
                begun.append(pool.submit(work, item))
            except RuntimeError as error:  # no thread can be started
                raise Failure(f"{jobs} jobs can't run side by side: {error}; see --jobs") from None
        while begun:
            yield begun.popleft().result()
    finally:
        for waiting in begun:
            waiting.cancel()
        pool.shutdown(wait=False)
