"""Files that measures make: plain ELF files, lists of addresses, RESERVE arguments."""
import struct
from collections.abc import Iterable
from typing import NamedTuple

PAGE, LOW, END = 0x1000, 0x20000, 0x7FFF0000


class Segment(NamedTuple):
    """Where a segment stands, its place in the file, its bytes there and in memory, and its flags."""
    low: int
    offset: int
    here: int
    size: int
    flags: int = 5


def elf(entry: int, segments: list[Segment], data: bytes, at: int) -> bytes:
    """A static ELF file with segments, and data from a place of the file on."""
    head = struct.pack("<HHIQQQIHHHHHH", 2, 62, 1, entry, 64, 0, 0, 64, 56, len(segments), 64, 0, 0)
    table = b"".join(struct.pack("<IIQQQQQQ", 1, it.flags, it.offset, it.low, it.low, it.here, it.size, PAGE)
                     for it in segments)
    return (b"\x7fELF\x02\x01\x01".ljust(16, b"\0") + head + table).ljust(at, b"\0") + data


def plain_file(text: bytes, low: int) -> bytes:
    """An ELF file with one segment, the text at an address."""
    return elf(low, [Segment(low, PAGE, len(text), len(text))], text, PAGE)


def lines(addresses: Iterable[int]) -> str:
    return "".join(f"{it:x}\n" for it in addresses)


def free_only(low: int, ranges: list[tuple[int, int]]) -> list[str]:
    """The RESERVE arguments that leave these ranges alone, and what lies below an address."""
    words = []
    for first, last in ranges:
        words.append(f"{low:x}-{first:x}")
        low = last
    return [*words, f"{low:x}-{END:x}"]
