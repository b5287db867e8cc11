"""The kinds of step: their bytes, names and fields, and how a trace falls into steps."""
from typing import Dict, Iterator, NamedTuple, Tuple

MOST_WARPS = 32


class Kind(NamedTuple):
    byte: int
    name: str
    fields: Tuple[str, ...]  # of the body, after the warp
    answer: str = ""         # what the step's value is by itself: token, test, pending or nothing
    after: str = "goes on"   # what its warp does once the step is accepted: goes on, waits or exits


KINDS = (
    Kind(0x01, "exit", (), after="exits"),
    Kind(0x02, "barrier.sync", ("barrier",), after="waits"),
    Kind(0x03, "barrier.sync", ("barrier", "threads"), after="waits"),
    Kind(0x04, "barrier.arrive", ("barrier", "threads")),
    Kind(0x05, "barrier.red", ("barrier", "selector", "mask"), after="waits"),
    Kind(0x06, "barrier.red", ("barrier", "selector", "threads", "mask"), after="waits"),
    Kind(0x07, "mbarrier.init", ("address", "count")),
    Kind(0x08, "mbarrier.inval", ("address",)),
    Kind(0x09, "mbarrier.arrive", ("address", "count"), "token"),
    Kind(0x0A, "mbarrier.arrive.noComplete", ("address", "count"), "token"),
    Kind(0x0B, "mbarrier.arrive.expect_tx", ("address", "transactions"), "token"),
    Kind(0x0C, "mbarrier.arrive_drop", ("address", "count"), "token"),
    Kind(0x0D, "mbarrier.arrive_drop.expect_tx", ("address", "transactions"), "token"),
    Kind(0x0E, "mbarrier.expect_tx", ("address", "transactions")),
    Kind(0x0F, "mbarrier.complete_tx", ("address", "transactions")),
    Kind(0x10, "mbarrier.test_wait", ("address", "token"), "test"),
    Kind(0x11, "mbarrier.test_wait.parity", ("address", "parity"), "test"),
    Kind(0x12, "mbarrier.pending_count", ("token",), "pending"),
    Kind(0x13, "mbarrier.arrive_drop.noComplete", ("address", "count"), "token"),
)

WIDTH = {"barrier": 1, "selector": 1, "threads": 2, "address": 2, "count": 4, "transactions": 4, "mask": 4, "token": 8,
         "parity": 1}  # the bytes of each field; in front of them are the kind and the warp, one byte each
BY_BYTE: Dict[int, Kind] = {kind.byte: kind for kind in KINDS}
SIZE: Dict[int, int] = {kind.byte: 2 + sum(WIDTH[field] for field in kind.fields) for kind in KINDS}
REDUCTIONS = ("popc", "and", "or")  # selectors 0, 1, 2
COMPLEMENT = 4                      # added to a selector by !


def steps(data: bytes) -> Iterator[bytes]:
    """The bytes of each whole step, up to what is none; no step where no block has so many warps."""
    place = 1 if data and 1 <= data[0] <= MOST_WARPS else len(data)
    while place < len(data):
        end = place + SIZE.get(data[place], len(data))  # of an unknown kind, always too far
        if end > len(data):
            return
        yield data[place:end]
        place = end


def values_of(step: bytes) -> Dict[str, int]:
    """The numbers of a whole step by the names of their fields, the warp among them."""
    values, place = {"warp": step[1]}, 2
    for field in BY_BYTE[step[0]].fields:
        values[field] = int.from_bytes(step[place:place + WIDTH[field]], "little")
        place += WIDTH[field]
    return values
