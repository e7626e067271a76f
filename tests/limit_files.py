"""The files of the cases at limits: long ones of few bytes that aren't zero, and the outputs of one patched instruction."""
from collections.abc import Mapping
from struct import pack, pack_into
from typing import NamedTuple

from made_rows import cover_event, entry, file_of, read, threads_event

TEXT, PAGE, PRIVATE = 0x401000, 0x1000, 0x20000
TRAMP, STUB, SAVE = PRIVATE + PAGE, PRIVATE + 2 * PAGE, PRIVATE + 4 * PAGE
MOV = b"\xb8\x3c\0\0\0"
# the events of the first site
COVER, THREADS = cover_event(0), threads_event(0)
REGISTERS = "rax rcx rdx rbx rsp rbp rsi rdi r8 r9 r10 r11 r12 r13 r14 r15 flags fs gs".split()
CHUNK = 1 << 20


class Sparse(NamedTuple):
    """Bytes at some places, and zeros elsewhere up to a length."""

    parts: Mapping[int, bytes]
    length: int


Content = bytes | Sparse


def write(path: str, content: Content) -> None:
    with open(path, "wb") as file:
        if isinstance(content, bytes):
            file.write(content)
            return
        file.truncate(content.length)
        for place, data in content.parts.items():
            file.seek(place)
            file.write(data)


def difference(wanted: str, found: str) -> int | None:
    """The first place at which two files differ, none where they are equal."""
    with open(wanted, "rb") as one, open(found, "rb") as other:
        at = 0
        while True:
            a, b = one.read(CHUNK), other.read(CHUNK)
            if a != b:
                return at + next((i for i, (x, y) in enumerate(zip(a, b)) if x != y), min(len(a), len(b)))
            if not a:
                return None
            at += len(a)


def padded(front: bytes, length: int) -> Sparse:
    """These bytes, and zeros behind them."""
    return Sparse({0: front}, length)


def original(text: bytes, length: int) -> Sparse:
    """A file of such a length with the text at 0x1000, which alone is loaded."""
    return padded(file_of(64, 1, text), length)


def written(text: bytes, length: int, event: bytes, loads: list[tuple[int, int, int, int]], entry_point: int = TEXT) -> dict[int, bytes]:
    """The parts of what is written of it where the first instruction, of five bytes, is the site, with these further entries."""
    end = length + PAGE - 1 & -PAGE
    jump = b"\xe9" + pack("<i", TRAMP - TEXT - 5)
    behind = b"\xe9" + pack("<i", TEXT - TRAMP - len(event) - 5)
    entries = sorted([*loads, (5, PAGE, TEXT, len(text)), (6, end + PAGE, PRIVATE, PAGE)], key=lambda it: it[2])
    table = entry(4, end, 0x10000, 56 * (len(entries) + 1)) + b"".join(entry(*it) for it in entries)
    front = bytearray(file_of(64, 1, jump + text[5:]))
    pack_into("<QQ", front, 24, entry_point, end)
    pack_into("<H", front, 56, len(entries) + 1)
    return {0: bytes(front), end: table, end + 2 * PAGE: event + text[:5] + behind}


def patched(text: bytes, length: int, event: bytes = COVER) -> Sparse:
    """What `patch` writes of it, or `threads` with its event."""
    end = length + PAGE - 1 & -PAGE
    return Sparse(written(text, length, event, [(5, end + 2 * PAGE, TRAMP, PAGE)]), end + 3 * PAGE)


def loaded(text: bytes, length: int) -> Sparse:
    """What `load` writes of it: its stub is the one of the row load_of_one_mov, whose addresses are the same."""
    end = length + PAGE - 1 & -PAGE
    stub = end + 3 * PAGE
    parts = written(text, length, COVER, [(5, stub, STUB, 2 * PAGE), (6, stub + 2 * PAGE, SAVE, PAGE)], STUB)
    parts[stub] = read("rows/load_of_one_mov/after/O")[5 * PAGE : 6 * PAGE]
    parts[stub + PAGE] = b"/proc/self/exe".ljust(16, b"\0") + pack("<IIQ", TRAMP, PAGE, end + 2 * PAGE)
    return Sparse(parts, stub + 3 * PAGE)


def report(length: int) -> bytes:
    """The report of such a patch."""
    rows = read("rows/cover_of_one_mov/after/R").split(b"\n")
    rows[1] = b"origin %d 64 1 %016x" % (length, TEXT)
    return b"\n".join(rows)


ZEROS = "".join(f"{name} {2 * (name == 'flags'):016x}\n" for name in REGISTERS)


def script(further: bytes = b"") -> bytes:
    """A world script whose registers are 0, and these lines behind them."""
    return f"e9world 1\n{ZEROS}".encode() + further + b"end\n"


def due(step: int, rip: int, addr: int = 0, written: str = "") -> str:
    """A delivery of a world script behind so many steps: registers that are 0, where it leads, and bytes that it writes."""
    write = f"mem {addr:016x} {written}\n" if written else ""
    return f"due {step:016x}\n{ZEROS}rip {rip:016x}\n{write}"


def told_run(steps: int, outside: int, rip: int, rax: int, world: int = 0) -> bytes:
    """What `step` prints of a quiet run from there that made all its steps."""
    values = {name: 0 for name in REGISTERS} | {"rax": rax, "flags": 2}
    registers = "".join(f"{name} {values[name]:016x}\n" for name in REGISTERS)
    return f"steps {steps}\nstop none\nquiet yes\noutside {outside}\nrip {rip:016x}\n{registers}world {world}\n".encode()
