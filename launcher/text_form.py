"""Traces as readable text: the bytes of a text, and the text of any bytes."""
import re
from typing import Dict, List, Tuple

from launcher import MOST_BYTES
from launcher.kinds import BY_BYTE, COMPLEMENT, KINDS, MOST_WARPS, REDUCTIONS, SIZE, WIDTH, Kind, steps, values_of

HELP = """\
A text looks like this:

    warps 2                            # the block has two warps
    w0: mbarrier.init [16], 3
    w0: mbarrier.arrive.expect_tx [16], 64
    w0: mbarrier.test_wait [16], token(0, 16, 3)   # phase, address, pending
    w0: barrier.arrive 1, 64           # for 64 threads
    w1: barrier.sync 1, 64
    w0: barrier.red.popc 2, !0x00ff    # for all threads; ! complements the lane mask

It is UTF-8, a statement to a line. Numbers are decimal or hex. A value that the checker
refuses can be written as long as it fits its field; a selector without a name is
barrier.red.sel3. Bytes that are no step are written .byte 0x14, 0x00. Such a line may
also stand in place of `warps N`, for a number of warps that no block has.

Steps:
"""
NUMBER = re.compile(r"0[xX][0-9a-fA-F]+|[0-9]+")
STEP = re.compile(r"w([0-9]+)\s*:\s*(\S+)\s*(.*)")
TOKEN = re.compile(r"token\s*\((.*)\)")
OPERAND = re.compile(r"(?:^|,)((?:\([^()]*\)|[^,])*)")  # no comma inside token(..) ends one
LINE_END = re.compile(r"\r\n|\n|\r")
NO_TEXT = re.compile("[\x00-\x08\x0b\x0c\x0e-\x1f\x7f-\x9f\udc80-\udcff]")  # controls; bytes that are no UTF-8


class Wrong(Exception):
    """A sentence about a line that can't be turned into bytes."""


def operands(text: str) -> List[str]:
    return [operand.strip() for operand in OPERAND.findall(text)] if text else []


def written(kind: Kind) -> List[str]:
    """The fields that are operands; a selector is part of the name."""
    return [field for field in kind.fields if field != "selector"]


def takes(kind: Kind) -> str:
    return ", ".join({"address": "[address]", "mask": "{!}mask"}.get(field, field) for field in written(kind))


def number(text: str, what: str, width: int) -> int:
    """The number written in `text`, which has to fit `width` bytes."""
    if not text:
        raise Wrong(f"The {what} is missing.")
    if not NUMBER.fullmatch(text):
        raise Wrong(f"`{text[:40]}` is no number for the {what}.")
    base = 16 if text[:2] in ("0x", "0X") else 10
    digits = (text[2:] if base == 16 else text).lstrip("0") or "0"
    if len(digits) > 40 or int(digits, base) >> (8 * width):
        raise Wrong(f"The {what} {text[:40]} doesn't fit {8 * width} bits.")
    return int(digits, base)


def token(text: str) -> int:
    """A token as one number, or by its parts: phase, address, pending."""
    inside = TOKEN.fullmatch(text)
    if not inside:
        return number(text, "token", WIDTH["token"])
    parts = operands(inside[1].strip())
    if len(parts) != 3:
        raise Wrong("A token is written token(phase, address, pending).")
    phase = number(parts[0], "token's phase", 4)
    address = number(parts[1], "token's address", 2)
    pending = number(parts[2], "token's pending count", 4)
    if address % 8 or address > 504 or pending >> 20:
        raise Wrong("A token's address is a multiple of 8 up to 504, its pending count below 1048576.")
    return phase << 26 | address // 8 << 20 | pending


def operand_value(field: str, text: str) -> int:
    """The value of one operand, without the complement of a mask."""
    if field == "token":
        return token(text)
    if field == "address":
        if not (text.startswith("[") and text.endswith("]")):
            raise Wrong(f"The address stands in brackets, not as `{text[:40]}`.")
        text = text[1:-1].strip()
    return number(text, field, WIDTH[field])


def kind_named(name: str, plain: str, count: int) -> Kind:
    """The kind of this plain name that takes so many operands."""
    forms = [kind for kind in KINDS if kind.name == plain]
    if not forms or name == "barrier.red":
        raise Wrong(f"There is no step `{name[:40]}`.")
    for kind in forms:
        if len(written(kind)) == count:
            return kind
    raise Wrong(f"`{name[:40]}` takes {' or '.join(takes(kind) or 'no operand' for kind in forms)}.")


def selector(name: str, complemented: bool) -> int:
    """The selector of a reduction by its name, barrier.red.popc or, as a number, barrier.red.sel3."""
    operation = name.rpartition(".")[2]
    if operation in REDUCTIONS:
        return REDUCTIONS.index(operation) + (COMPLEMENT if complemented else 0)
    if complemented or not operation.startswith("sel"):
        raise Wrong(f"There is no step `{name[:40]}`{' with a !' if complemented else ''}.")
    return number(operation[3:], "selector", WIDTH["selector"])


def step_bytes(warp: str, name: str, texts: List[str]) -> bytes:
    """The bytes of one step."""
    values: Dict[str, int] = {}
    plain = name
    if name.startswith("barrier.red."):
        complemented = bool(texts) and texts[-1].startswith("!")
        values["selector"], plain = selector(name, complemented), "barrier.red"
        texts = texts[:-1] + [texts[-1][1:].strip()] if complemented else texts
    if name in ("mbarrier.arrive", "mbarrier.arrive_drop") and len(texts) == 1:
        texts = texts + ["1"]  # as in PTX
    kind = kind_named(name, plain, len(texts))
    values.update((field, operand_value(field, text)) for field, text in zip(written(kind), texts))
    return bytes([kind.byte, number(warp, "warp", 1)]) + b"".join(
        values[field].to_bytes(WIDTH[field], "little") for field in kind.fields)


def warps_byte(text: str) -> bytes:
    count = number(text, "number of warps", 8)
    if 1 <= count <= MOST_WARPS:
        return bytes([count])
    other = f"; `.byte {count}` as the first statement makes the trace that the checker refuses"
    raise Wrong(f"A block has 1 to {MOST_WARPS} warps, not {count}{other if count < 256 else ''}.")


def statement(code: str, first: bool) -> bytes:
    """The bytes of one line without its comment."""
    word, rest = (code.split(None, 1) + [""])[:2]
    if word == ".byte":
        return bytes(number(text, "byte", 1) for text in operands(rest) or [""])
    if first and word == "warps":
        return warps_byte(rest)
    if first or word == "warps":
        raise Wrong("The first statement, and no other, is `warps N`, the number of warps.")
    parts = STEP.fullmatch(code)
    if not parts:
        raise Wrong("A step is written `wN: name operands`.")
    return step_bytes(parts[1], parts[2], operands(parts[3]))


def why_no_text(data: bytes) -> str:
    """The sentence that says that these bytes are no text, after its line where one is meant."""
    if data.startswith((b"\xef\xbb\xbf", b"\xff\xfe", b"\xfe\xff")):  # of UTF-8, and of UTF-16 both ways
        return ": The text begins with a byte-order mark; save it as UTF-8 without one."
    text = data.decode("utf-8", "surrogateescape")
    bad = NO_TEXT.search(text)
    if not bad:
        return ""
    if 1 <= data[0] <= MOST_WARPS and (len(data) == 1 or data[1] in BY_BYTE) and not data[:2].isspace():
        return ": This is no text; it looks like a trace, and `glubotar show` shows one."
    line = len(LINE_END.split(text[:bad.start()]))
    return f":{line}: This is no text: no text in UTF-8 has the byte 0x{ord(bad[0]) % 256:02x} here."


def asm(text: bytes, name: str) -> Tuple[bytes, List[str]]:
    """The bytes of a text; or none, and a sentence for each thing that is wrong with it."""
    why = why_no_text(text)
    if why:
        return b"", [name + why]
    complaints: List[str] = []
    out, first = bytearray(), True
    for line, whole in enumerate(LINE_END.split(text.decode()), 1):
        code = whole.partition("#")[0].strip()
        if not code:
            continue
        try:
            out += statement(code, first)
        except Wrong as wrong:
            complaints.append(f"{name}:{line}: {wrong}")
            if first and code.startswith("warps"):  # a block that can't be: what follows isn't judged
                return b"", complaints
        first = False
    if first:
        complaints = [f"{name}: The text has no statement; a text begins with `warps N`, the number of warps."]
    if not complaints and len(out) > MOST_BYTES:
        complaints = [f"{name}: The trace would have {len(out):,} bytes, and {MOST_BYTES:,} is the most."]
    return (b"", complaints) if complaints else (bytes(out), [])


def token_text(value: int) -> str:
    if value >> 58:
        return hex(value)
    return f"token({value >> 26}, {(value >> 20) % 64 * 8}, {value % (1 << 20)})"


def step_text(step: bytes) -> str:
    """The line for the bytes of one whole step."""
    kind, values, mark = BY_BYTE[step[0]], values_of(step), ""
    name, which = kind.name, values.get("selector", -1)
    if which in (0, 1, 2, 4, 5, 6):
        name += "." + REDUCTIONS[which % COMPLEMENT]
        mark = "!" if which >= COMPLEMENT else ""
    elif which >= 0:
        name += f".sel{which}"
    texts = {"address": "[{}]".format, "mask": (mark + "0x{:08x}").format, "token": token_text}
    shown = ", ".join(texts.get(field, str)(values[field]) for field in written(kind))
    return f"w{step[1]}: {name} {shown}".rstrip()


def byte_text(data: bytes) -> str:
    return ".byte " + ", ".join(f"0x{byte:02x}" for byte in data)


def show(data: bytes, numbered: bool = False) -> str:
    """The text of any bytes."""
    if not data:
        return "# an empty trace: not even the number of warps is there\n"
    lines: List[str] = []
    whole = list(steps(data))
    if len(data) > MOST_BYTES:
        lines.append(f"# {len(data):,} bytes: the checker refuses more than {MOST_BYTES:,} as too long (21)")
    place, why = 0, f"{data[0]} is no number of warps, which is 1 to {MOST_WARPS}"
    if 1 <= data[0] <= MOST_WARPS:
        lines.append(f"warps {data[0]}")
        place = 1
    for count, step in enumerate(whole, 1):
        lines.append(step_text(step) + (f"  # {count}" if numbered else ""))
        place += len(step)
    if place and place < len(data):
        why = f"a step of {SIZE[data[place]]} bytes, cut" if data[place] in SIZE else "no such kind"
    if place < len(data):
        tag = f"  # {len(whole) + 1 if place else 0}" if numbered else ""
        lines.append(f"# {why}: a checker reads no further than this{tag}")
    lines += [byte_text(data[start:start + 8]) for start in range(place, len(data), 8)]
    return "\n".join(lines) + "\n"


def grammar() -> str:
    """The lines on the text form, then all steps."""
    names = (kind.name + (".{popc,and,or}" if "selector" in kind.fields else "") for kind in KINDS)
    return HELP + "".join(f"    {name} {takes(kind)}".rstrip() + "\n" for name, kind in zip(names, KINDS))
