"""Rows of `settle` and `unsettle`: what is written of position independent programs, each refusal, and what comes back."""
from collections.abc import Iterator

from made_rows import Row
from settled_files import DYNAMIC, END, NOTE, PAGE, PHDR, STACK, STUB, TLS, highest, load, other, program, put, section, settled, up, with_sections

SETTLE, UNSETTLE = "settle F O", "unsettle O N"
TINY = program(120, [load(5, 0, 0, 121)], b"\xf4")
# as linkers make one: the header's own segment, the text, and data with zeros behind them, and what a kernel isn't to see
USUAL_ENTRIES = [
    other(PHDR, 64, 64, 7 * 56),
    load(4, 0, 0, 0x300),
    load(5, 0x1000, 0x1000, 0x20),
    load(6, 0x2010, 0x3010, 0x30, 0x5000),
    other(DYNAMIC, 0x2010, 0x3010, 0x20),
    other(TLS, 0x2020, 0x3020, 0x10),
    (STACK, 6, 0, 0, 0, 0, 0, 16),
]
USUAL = program(0x1004, USUAL_ENTRIES, b"").ljust(0x1000, b"h") + b"\xf4" * 0x1000 + b"d" * 0x1040
WIDE = program(0x200004, [load(4, 0, 0, 0x200), load(5, 0x1000, 0x201000 - 0x1000, 0x10, align=0x200000)], b"").ljust(0x1010, b"\xf4")
MANY = program(0x2000, [load(5, 0, 0, 0x2008), *[other(NOTE, 0, 0, 0)] * 99], b"").ljust(0x2008, b"\xf4")
MOST = program(0xF000, [load(5, 0, 0, 0xF008), *[other(NOTE, 0, 0, 0)] * 1022], b"").ljust(0xF008, b"\xf4")
# a null section whose offset means nothing, code, data without bytes, names, and one whose offset is the largest
SECTIONS = [
    section(0, 0x77, 0),
    section(1, 0x1000, 0x20, 0x1000),
    section(8, 0x2040, 0x4FD0, 0x3040),
    section(1, (1 << 64) - 1, 1),
    section(3, 0x2040, 0x40),
]
NULL = [section(0, 0, 0)]
ROOM = (up(64 + 56 * 8 + STUB) - (64 + 56 * 8 + STUB + 7)) // 64  # how many sections the front of USUAL has room for
SECTIONED = {
    "with sections": with_sections(USUAL, SECTIONS),
    "with sections at an odd place": with_sections(USUAL + b"x", SECTIONS),
    "with one section": with_sections(TINY, SECTIONS[1:2]),
    "with as many sections as there is room for": with_sections(USUAL, SECTIONS * (ROOM // 5) + NULL * (ROOM % 5)),
    "with a section too many": with_sections(USUAL, SECTIONS * (ROOM // 5) + NULL * (ROOM % 5 + 1)),
    "with sections of another length": with_sections(USUAL, SECTIONS, 63),
    "with sections that reach past its end": with_sections(USUAL, SECTIONS)[:-1],
    "with a table and no section": with_sections(USUAL, []),
    "with sections far behind its end": put(with_sections(USUAL, SECTIONS), 40, "Q", (1 << 64) - 64),
}
PROGRAMS = {"tiny": TINY, "usual": USUAL, "wide": WIDE, "of 100 entries": MANY, "of 1,023 entries": MOST, **SECTIONED}

# where a field of the header or of the first entry of TINY stands, how wide it is, what is put there, and what is then refused
FIELDS = [
    (0, "B", 0x7E, "FILE 2 BadMagic"),
    (4, "B", 1, "FILE 3 NotClass64"),
    (5, "B", 2, "FILE 4 NotLittle"),
    (16, "H", 2, "SETTLE 1 NotDyn"),
    (16, "H", 4, "SETTLE 1 NotDyn"),
    (18, "H", 3, "FILE 6 NotX86"),
    (54, "H", 55, "FILE 7 BadPhentSize"),
    (32, "Q", 1 << 63, "FILE 8 TableOutside"),
    (56, "H", 2, "FILE 8 TableOutside"),
    (64, "I", 3, "SETTLED 9 Dynamic 1"),
    (64, "I", 2, "SETTLE 5 TableNotLoaded"),
    (56, "H", 0, "SETTLE 5 TableNotLoaded"),
    (68, "I", 4, "SETTLE 6 EntryOutside"),
    (68, "I", 7, "SETTLE 6 EntryOutside"),
    (24, "Q", 121, "SETTLE 6 EntryOutside"),
    (24, "Q", (1 << 64) - 1, "SETTLE 6 EntryOutside"),
    (72, "Q", 1, "SETTLE 3 SegmentOutside 0"),
    (72, "Q", (1 << 64) - 1, "SETTLE 3 SegmentOutside 0"),
    (96, "Q", 122, "SETTLE 3 SegmentOutside 0"),
    (96, "Q", 119, "SETTLE 5 TableNotLoaded"),
    (104, "Q", 120, "SETTLED 11 SizeOrder 1"),
    (104, "Q", 0, "SETTLED 11 SizeOrder 1"),
    (80, "Q", 1, "SETTLED 12 Misaligned 1"),
    (80, "Q", END, "SETTLED 13 AddressHigh 1"),
    (104, "Q", END, "SETTLED 14 AddressLow 0"),
    (104, "Q", END - 0x20000, "SETTLED 14 AddressLow 0"),
    (104, "Q", END - 0x21000, "settled 00021000"),
    (112, "Q", 0x40000000, "settled 40000000"),
    (112, "Q", 0x80000000, "SETTLED 14 AddressLow 0"),
    (112, "Q", 5000, "SETTLED 12 Misaligned 0"),
]

# the base that is told for USUAL or WIDE, and what is refused
BASES = [
    ("USUAL", "base:10000001", "SETTLE 4 BaseUnaligned 0000000000001000"),
    ("WIDE", "base:10001000", "SETTLE 4 BaseUnaligned 0000000000200000"),
    ("USUAL", "base:0", "SETTLED 14 AddressLow 0"),
    ("USUAL", "base:20000", "SETTLED 14 AddressLow 0"),
    ("USUAL", "base:7ffe8000", "SETTLED 13 AddressHigh 4"),
    ("USUAL", "base:7fff0000", "SETTLED 13 AddressHigh 2"),
    ("USUAL", "base:fffff000", "SETTLED 13 AddressHigh 0"),
]


def refused(words: str, name: str, file: bytes, told: str) -> Row:
    """The file is refused, and nothing is written."""
    return Row(f"{words}, refused {told}", words.encode().split(), {name: file}, 3, f"refused {told}\n".encode())


def written(what: str, file: bytes, base: int, word: str = "") -> Iterator[Row]:
    """What is written of a file, and what comes back of that."""
    out = settled(file, base)
    yield Row(f"settle {what}{word}", f"{SETTLE}{word}".encode().split(), {"F": file}, 0, b"settled %08x\n" % base, {"O": out})
    yield Row(f"unsettle {what}{word}", UNSETTLE.encode().split(), {"O": out}, 0, b"unsettled %d\n" % len(file), {"N": file})


def written_rows() -> Iterator[Row]:
    for what, file in PROGRAMS.items():
        yield from written(what, file, highest(file))
        yield from written(what, file, 0x10000000, " base:10000000")
    yield from written("usual", USUAL, 0x21000, " base:021000")
    yield from written("usual", USUAL, 0x7FFE7000, " base:7FFE7000")


def refused_rows() -> Iterator[Row]:
    for length in (0, 63, 64, 119, 120):
        told = "FILE 1 TooShort" if length < 64 else "FILE 8 TableOutside" if length < 120 else "SETTLE 3 SegmentOutside 0"
        yield refused(SETTLE, "F", TINY[:length], told)
    for at, kind, value, told in FIELDS:
        file = put(TINY, at, kind, value)
        if told.startswith("settled"):
            yield from written(f"tiny, {value:x} at {at}", file, int(told.split()[1], 16))
        else:
            yield refused(SETTLE, "F", file, told)
    for name, word, told in BASES:
        yield refused(f"{SETTLE} {word}", "F", {"USUAL": USUAL, "WIDE": WIDE}[name], told)
    yield refused(SETTLE, "F", program(0xF000, [load(5, 0, 0, 0xF008), *[other(NOTE, 0, 0, 0)] * 1023], b"").ljust(0xF008), "SETTLE 2 TooManyEntries 1024")
    twice = [load(5, 0, 0, 176), load(4, 0, 0x80, 1)]
    yield refused(SETTLE, "F", program(0, twice, b""), "SETTLED 12 Misaligned 2")
    yield refused(SETTLE, "F", program(0, [twice[0], load(4, 0x80, 0x80, 1)], b""), "SETTLED 15 LoadOrder 2")


def back_rows() -> Iterator[Row]:
    """A settled file cut off or changed: in the front, or where FILE's header or table stands behind it, it is none; else another comes back."""
    out = settled(USUAL, 0x10000000)
    for length in (0, 63, 64, 96, 4095, 4096, 4096 + 63, 4096 + 64 + 7 * 56 - 1, len(out) - 0x1001):
        yield refused(UNSETTLE, "O", out[:length], "UNSETTLE 1 NotSettled")
    used = 64 + 8 * 56 + STUB
    for place in [*range(0, used, 7), used, 4095, 4096, 4096 + 24, 4096 + 64 + 56 + 16]:
        changed = put(out, place, "B", out[place] ^ 1)
        yield refused(UNSETTLE, "O", changed, "UNSETTLE 1 NotSettled")
    yield refused(UNSETTLE, "O", put(out, 64 + 24, "Q", 1 << 32), "UNSETTLE 1 NotSettled")
    yield refused(UNSETTLE, "O", USUAL, "UNSETTLE 1 NotSettled")
    new = put(USUAL, 0x1800, "B", 0xCC)
    yield Row("unsettle another text", UNSETTLE.encode().split(), {"O": out[:4096] + new}, 0, b"unsettled %d\n" % len(new), {"N": new})


def fault_rows() -> Iterator[Row]:
    for words, name in ((SETTLE, "F"), (UNSETTLE, "O")):
        yield Row(f"{words} can't read {name}", words.encode().split(), {}, 4, f"fault read {name}\n".encode())
    yield Row("settle can't write", b"settle F no/O".split(), {"F": TINY}, 5, b"fault write no/O\n")
    yield Row("unsettle can't write", b"unsettle O no/N".split(), {"O": settled(TINY, 0x10000000)}, 5, b"fault write no/N\n")


def settled_rows() -> Iterator[Row]:
    for rows in (written_rows, refused_rows, back_rows, fault_rows):
        yield from rows()
