"""What `patch` takes for sites that were made to be slow, nothing found for any.

A row has sites, each before its victims, and free pages: one of each 64 KB or more, except the last all at the same
place in their 64 KB. RESERVE arguments take what lies between them, or segments without bytes in the file. So a jump
whose targets lie 64 KB apart finds the free one in the last band alone, by value after value, and the other jump, which
has the same value high, just misses a free page by each. In the rows with gaps the pages stand at four places of their
64 KB, so that the values which lead to them leave gaps, and the other jump reaches a free page by a value in each gap.
"""
from collections.abc import Iterator
from typing import NamedTuple

from measures.files import END, LOW, PAGE, Segment, elf, lines
from measures.running import Bench, point

# the first free page, the eighth of its 64 KB; and where the last one stands in its own
FIRST, LAST = 0x428, 0x1
# after the text and above its pages
ABOVE = 0x403000
TEXT = 0x401000
FIVE, SEVEN, NOPS = ["b890909090"], ["48c7c100000000"], ["90"] * 4
SITE, NEAR = ["89d8"], ["89d8", "f4"]  # what follows the second can't be displaced


class Row(NamedTuple):
    """A row: its name, the instructions of a site, itself first, and how many such sites."""
    name: str
    block: list[str]
    sites: int
    # how many pages are free, and how many pages from each to the next
    free: int
    period: int
    # the RESERVE arguments, if they don't follow from the free pages
    reserve: list[str] = []
    # whether segments take what lies between the free pages
    by_segments: bool = False
    has_gaps: bool = False


BY_SEGMENTS = ["21000-401000"]
ROWS = [
    Row("17 victims of five bytes by T3", [*NEAR, *FIVE * 17, "0000"], 40, 0, 0, ["402000-410000", "411000-41a000"]),
    Row("255 free pages, one in each 64 KB, by T3", [*NEAR, *SEVEN * 18, *NOPS], 1, 255, 16),
    Row("one in each 256 KB by T3", [*NEAR, *SEVEN * 18, *NOPS], 1, 255, 64),
    Row("the same by T2", [*SITE, *SEVEN, *NOPS], 1, 255, 64),
    Row("the same by both", [*SITE, *SEVEN * 18, *NOPS], 1, 255, 64),
    Row("990 free pages between segments by both", [*SITE, *SEVEN * 18, *NOPS], 1, 990, 64, BY_SEGMENTS, True),
    Row("255 free pages whose shared values leave gaps by both", [*SITE, *SEVEN * 18, *NOPS], 1, 255, 0,
        has_gaps=True),
    Row("990 such pages between segments by both", [*SITE, *SEVEN * 18, *NOPS], 1, 990, 0, BY_SEGMENTS, True, True),
]


def gap_pages(count: int) -> list[int]:
    """Four pages that the one jump reaches, by values in the gaps of the others, at 2, 4, 6, 8 of their 64 KB."""
    gaps = [(0x40 + value) * 16 + 15 for value in (0x14, 0x7F6, 0x27F6, 0x67F6)]
    others = count - len(gaps)
    return sorted(gaps + [(0x42 + 0x4700 // count * k) * 16 + 2 + 2 * (4 * k // others) for k in range(others)])


def free_pages(row: Row) -> list[int]:
    """The numbers of the free pages but that of the private range, ascending."""
    if row.has_gaps:
        return gap_pages(row.free)
    pages = [FIRST + row.period * k for k in range(row.free)]
    return pages[:-1] + [(pages[-1] + row.period & ~15) + LAST]


def taken_between(row: Row, low: int) -> Iterator[tuple[int, int]]:
    """What lies between the free pages, from an address on."""
    for page in free_pages(row):
        yield low, page * PAGE
        low = (page + 1) * PAGE
    yield low, END


def file_of(text: bytes, taken: list[tuple[int, int]]) -> bytes:
    """An ELF file with the text, and segments without bytes in the file above it."""
    start = 64 + 56 * (1 + len(taken)) + PAGE - 1 & -PAGE
    segments = [Segment(low, low % PAGE, 0, high - low, 4) for low, high in taken]
    return elf(TEXT, [Segment(TEXT, start, len(text), len(text)), *segments], text, start)


def write_row(bench: Bench, row: Row) -> list[str]:
    """The files `file`, `starts`, `sites` and, without a site, `none`; and the RESERVE arguments."""
    parts = [bytes.fromhex(it) for it in row.block * row.sites]
    starts, at = [], TEXT
    for part in parts:
        starts.append(at)
        at += len(part)
    taken = list(taken_between(row, ABOVE)) if row.by_segments else []
    bench.write("file", file_of(b"".join(parts), taken))
    bench.write("starts", lines(starts))
    bench.write("sites", lines(starts[::len(row.block)]))
    bench.write("none", "")
    return row.reserve or [f"{low:x}-{high:x}" for low, high in taken_between(row, LOW + PAGE)]


def worst(bench: Bench) -> list[str]:
    """By row, what a site takes."""
    found = []
    for row in ROWS:
        reserve = write_row(bench, row)
        with_sites, without = ([bench.tool, "patch", "file", "starts", it, "cover", "out", "report", *reserve]
                               for it in ("sites", "none"))
        spent = bench.took(with_sites).seconds - bench.took(without).seconds
        count = bench.counted(with_sites) - bench.counted(without)
        found.append(f"{row.name} {1000 * spent / row.sites:.2f}, {count / row.sites / 1e6:.2f}")
    return point("**Files made to be slow**, ms and million instructions for each site, none of which finds a place: "
                 f"{'; '.join(found)}.")


def many_segments(bench: Bench) -> list[str]:
    """By the number of segments that load one page of FILE, each at its own; before them a text of 200 sites."""
    found, low, sites = [], 0x500000, 200
    bench.write("starts", lines(range(TEXT, TEXT + 5 * sites, 5)))
    for number in (225, 900):
        place = 64 + 56 * (number + 1) + PAGE - 1 & -PAGE
        loads = [Segment(at, place, PAGE, PAGE) for at in (TEXT, *range(low, low + PAGE * number, PAGE))]
        text = b"".join(b"\xb8" + k.to_bytes(4, "little") for k in range(sites))
        bench.write("file", elf(TEXT, loads, text.ljust(PAGE, b"\xcc"), place))
        for words in ("patch file starts starts cover out report", "check file out starts report"):
            whole = [bench.tool, *words.split()]
            spent, count = bench.took(whole).seconds, bench.counted(whole)
            found.append(f"{number} `{whole[1]}` {1000 * spent:.1f}, {count / 1e6:.1f}")
    return point(f"**Segments of one page of FILE**, ms and million instructions: {'; '.join(found)}.")
