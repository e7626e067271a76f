"""Rows of `check`: changes of four patched files and of their reports, as the lines of changed_files.txt tell them, and private ranges that
hold the record or are too short for it."""
from collections.abc import Iterator
from typing import NamedTuple

from made_rows import Row, entry, file_of, read

TEXT, PAGE = 0x401000, 0x1000
# a PT_LOAD: flags, offset, address, length
Load = tuple[int, int, int, int]
Puts = dict[int, str]
TABLE, PRIVATE, CODE = (4, 0x2000, 0x10000, 0xE0), (6, 0x3000, 0x20000, PAGE), (5, 0x4000, 0x21000, PAGE)
SITE = "site 00401000 0 B1;tramp 00021000 00401000 event;write 00401000 b83c000000 e9fbffc1ff;"
ONE_SITE = f"e9report 1;action cover;private 00020000 1;sites 1;{SITE}page 00021000 0;end;"
ONE_CODE = "c604254000020001b83c000000e9f3ff3d"


class Base(NamedTuple):
    """What an original and a sound patch of it load and hold, the place of the patch's table, the starts as far above 0x401000, and the
    report, with `;` for LF."""

    original: tuple[int, list[Load], Puts]
    patched: tuple[int, list[Load], Puts]
    table: int
    starts: str
    report: str


BASES = {
    # `mov eax, 60; nop; nop`, by B1 at the first
    "first": Base(
        (0x1007, [(5, 0x1000, TEXT, 7)], {0x1000: "b83c0000009090"}),
        (0x5000, [TABLE, PRIVATE, CODE, (5, 0x1000, TEXT, 7)], {0x1000: "e9fbffc1ff9090", 0x4000: ONE_CODE}),
        0x2000,
        "0 5 6",
        ONE_SITE,
    ),
    # `mov eax, 60; mov eax, 60; nop; nop`, by B1 at the first
    "one": Base(
        (0x100C, [(5, 0x1000, TEXT, 12)], {0x1000: "b83c000000b83c0000009090"}),
        (0x5000, [TABLE, PRIVATE, CODE, (5, 0x1000, TEXT, 12)], {0x1000: "e9fbffc1ffb83c0000009090", 0x4000: ONE_CODE}),
        0x2000,
        "0 5 a b",
        ONE_SITE,
    ),
    # `mov eax, 60; mov eax, ebx; add rbx, 0x11223344`, by B1 at the first and by T3 at the second, whose victim is the third; and behind
    # them `add [rcx], al; add al, al`, LOOP, INT3, a byte that is no spelling, `mov eax, [rip - 2^31]`, a call as far below, `nop`, a short
    # jump and four `nop`s. A segment of data has 24 bytes, eight of them in the file.
    "two": Base(
        (
            0x3000,
            [(5, 0x1000, TEXT, 40), (6, 0x2000, 0x403000, 8)],
            {
                0xA0: "18",
                0x1000: "b83c00000089d84881c344332211000100c0e2fecc068b0500000080e80000008090eb0090909090",
                0x2000: "0102030405060708",
            },
        ),
        (
            0x7000,
            [
                (4, 0x3000, 0x10000, 0x188),
                (6, 0x4000, 0x20000, PAGE),
                (5, 0x5000, 0x21000, PAGE),
                (5, 0x1000, TEXT, 40),
                (6, 0x2000, 0x403000, 8),
                (5, 0x6000, 0x411000, PAGE),
            ],
            {
                0x1000: "e9fb00c2ffeb05e9f4ffc1ffe90f000100c0e2fecc068b0500000080e80000008090eb0090909090",
                0x2000: "0102030405060708",
                0x3108: "18",
                0x5000: "4881c344332211e902003e",
                0x5100: "c604254000020001b83c000000e9f3fe3d",
                0x6020: "c60425410002000189d8e9d8fffeff",
            },
        ),
        0x3000,
        "0 5 7 e 10 12 14 15 16 1c 21 22 24 25 26 27",
        "e9report 1;action cover;private 00020000 1;sites 2;site 00401005 1 T3;tramp 00411020 00401005 event;tramp 00021000 00401007 plain;"
        "write 00401005 89d84881c344332211 eb05e9f4ffc1ffe90f;pun 0040100e 000100;site 00401000 0 B1;tramp 00021100 00401000 event;"
        "write 00401000 b83c000000 e9fb00c2ff;page 00021000 0;page 00411000 1;end;",
    ),
    # `mov rax, rbx; add [rdx], al; add al, al`, by T1 with one pad at the first; and four `nop`s
    "pad": Base(
        (0x100B, [(5, 0x1000, TEXT, 11)], {0x1000: "4889d8000200c090909090"}),
        (
            0x5000,
            [TABLE, PRIVATE, (5, 0x1000, TEXT, 11), (5, 0x4000, 0x421000, PAGE)],
            {0x1000: "40e90a000200c090909090", 0x4010: "c6042540000200014889d8e9e3fffdff"},
        ),
        0x2000,
        "0 3 5 7 8 9 a",
        "e9report 1;action cover;private 00020000 1;sites 1;site 00401000 0 T1;tramp 00421010 00401000 event;write 00401000 4889d8 40e90a;"
        "pun 00401003 000200;page 00421000 0;end;",
    ),
}


def lay(file: bytearray, at: int, digits: str) -> None:
    data = bytes.fromhex(digits)
    file[at : at + len(data)] = data


def laid_out(length: int, table: int, loads: list[Load], puts: Puts) -> bytearray:
    """A file of such a length that begins at 0x401000, with this table."""
    file = bytearray(length)
    file[:64] = file_of(table, len(loads), b"")[:64]
    entries = b"".join(entry(*it) for it in loads)
    file[table : table + len(entries)] = entries
    for at, digits in puts.items():
        lay(file, at, digits)
    return file


def starts_at(offsets: str) -> bytes:
    return "".join(f"{TEXT + int(it, 16):x}\n" for it in offsets.split()).encode()


def told(rules: str) -> str:
    """Of the rules that fail the one at the least address, and there the least."""
    if rules == "yes":
        return "check yes\n"
    found = sorted((int(addr, 16), number) for number, addr in (it.split(":") for it in rules.split()))
    addr, number = found[0]
    return f"check no {addr:08x} {number}\n" if addr < 1 << 32 else f"check no {addr:016x} {number}\n"


def row_of(line: str) -> Row:
    """A base, its changes, and what is told."""
    name, *changes, rules = line.split(" | ")
    base = BASES[name]
    files = {"o": laid_out(base.original[0], 64, *base.original[1:]), "": laid_out(base.patched[0], base.table, *base.patched[1:])}
    report, starts = base.report, base.starts
    for change in changes:
        word, _, rest = change.partition(" ")
        if word == "tell":
            old, new = rest.split(" => ")
            assert old in report
            report = report.replace(old, new, 1)
        elif word == "starts":
            starts = rest
        else:
            for part in change.split():
                place, digits = part.split("=")
                lay(files["o" if place[0] == "o" else ""], int(place.lstrip("o"), 16), digits)
    inputs = {"F": bytes(files["o"]), "O": bytes(files[""]), "S": starts_at(starts), "R": report.replace(";", "\n").encode()}
    return Row(f"changed, {line}", b"check F O S R".split(), inputs, 0 if rules == "yes" else 7, told(rules).encode())


def changed_rows() -> Iterator[Row]:
    for line in read("changed_files.txt").decode().splitlines():
        if line and not line.startswith("#"):
            yield row_of(line)


# the action, the pages of the private range, the sites, and whether the range is long enough: the record begins 64 bytes into it, and has
# a byte for each site under `cover`, eight under `count`
RECORDS = [
    ("cover", 1, 0, True),
    ("cover", 1, 1, True),
    ("cover", 1, 4032, True),
    ("cover", 1, 4033, False),
    ("cover", 1, 4096, False),
    ("cover", 2, 4033, True),
    ("cover", 2, 8129, False),
    ("count", 1, 1, True),
    ("count", 1, 504, True),
    ("count", 1, 505, False),
    ("count", 1, 506, False),
    ("count", 1, 1016, False),
    ("count", 2, 505, True),
    ("count", 2, 1016, True),
    ("count", 2, 1017, False),
    ("count", 3, 1528, True),
    ("count", 3, 1529, False),
]


def record_rows() -> Iterator[Row]:
    """As many `nop`s, each a site of which the report tells no plan."""
    for action, pages, sites, is_enough in RECORDS:
        count = max(sites, 1)
        text, private = (5, 0x1000, TEXT, count), (6, 0x5000, 0x20000, PAGE * pages)
        nops = {0x1000: "90" * count}
        patched = laid_out(0x5000 + PAGE * pages, 0x4000, [(4, 0x4000, 0x10000, 0xA8), private, text], nops)
        rows = "".join(f"site {TEXT + number:08x} {number} NoPlan\n" for number in reversed(range(sites)))
        files = {
            "F": bytes(laid_out(0x1000 + count, 64, [text], nops)),
            "O": bytes(patched),
            "S": "".join(f"{TEXT + k:x}\n" for k in range(count)).encode(),
            "R": f"e9report 1\naction {action}\nprivate 00020000 {pages}\nsites {sites}\n{rows}end\n".encode(),
        }
        verdict = "check yes\n" if is_enough else "check no 00020000 6\n"
        name = f"room for {sites} sites of {action} in {pages} pages"
        yield Row(name, b"check F O S R".split(), files, 0 if is_enough else 7, verdict.encode())


def changed_files_rows() -> Iterator[Row]:
    yield from changed_rows()
    yield from record_rows()
