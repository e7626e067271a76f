"""Commands whose work and memory are measured: what each shows, its inputs, and the commands that make further ones."""
from collections.abc import Callable, Mapping
from functools import partial
from struct import pack
from typing import NamedTuple

from limit_files import script
from settled_rows import MOST, SETTLE, TINY, UNSETTLE
from work_files import (
    MIXED,
    ODD,
    TEXT,
    Inputs,
    assorted,
    blocks,
    far_runs,
    free_only,
    gap_pages,
    holes,
    long_answer,
    loop,
    pages_behind_holes,
    pages_beside_holes,
    passed_holes,
    plain,
    program,
    segments,
    with_data,
)

COVER, CHECK = "patch F S T cover O R", "check F O S R"
# where the text of searches stands, and what is free below it
HIGH, NEAR = 0x10000000, (0x10000000 - 0x400000, 0x10000000)
# a site whose jump leads below the text by the last of 65,536 shared values: by T2; by T3, since what follows the site can't be displaced
SHARED = "89d8 b800e0e000 c1ff05 " + "90 " * 22
SHARED_NEAR = "89d8 f4 b800e0e000 c1ff05 " + "90 " * 21
# one for which no place is found, with all the victims that T2 and T3 may have
VICTIMS = "89d8 " + "48c7c100000000 " * 18 + "90 " * 4

# what a jump above it reaches by a value above those of the other jump alone, so that no value is left to mark
BEHIND = (0x0F00F000, 0x0F010000)
# so many sites that are searched for, below so many that leave holes
HOLES = (2, 240)
PASSED = (1000, 1000)
# with which the C library gives freed memory back, from 128 KiB on, however much it has seen
GIVES_BACK = {"GLIBC_TUNABLES": "glibc.malloc.mmap_threshold=131072"}


class Work(NamedTuple):
    """A command, its status, its files, some of which other commands make before, and what it has of the environment beside what all have."""

    name: str
    words: str
    inputs: Callable[[], Inputs]
    status: int = 0
    before: str = ""
    environment: Mapping[str, str] = {}


def cover_within(pages: list[tuple[int, int]]) -> str:
    """A patch whose new code has these addresses alone, and its private range the page at 0x20000."""
    return f"{COVER} {free_only(0x21000, pages)}"


def pie(length: int, file: bytes = TINY) -> Inputs:
    """A static PIE with data behind what it loads."""
    return {"F": file.ljust(length, b"\xf4")}


# whose instructions are counted
COUNTED = [
    Work("patch: a jump over each site", COVER, partial(plain, 4096)),
    Work("patch: starts alone", COVER, partial(assorted, 60000)),
    Work("patch: shared values, T2", cover_within([NEAR]), partial(blocks, SHARED, 120, HIGH)),
    Work("patch: shared values, T3", cover_within([NEAR]), partial(blocks, SHARED_NEAR, 120, HIGH)),
    Work("patch: no page is near", cover_within([(0x20008000, 0x20009000)]), partial(blocks, SHARED, 120, HIGH), 1),
    Work("patch: pages each alone", cover_within(gap_pages(255)), partial(blocks, VICTIMS, 1), 1),
    Work("patch: a page that high values alone reach", cover_within([BEHIND]), partial(blocks, VICTIMS, 20, 0x10000700), 1),
    Work("patch: holes", cover_within(pages_beside_holes(*HOLES, 120)), partial(holes, *HOLES), 1),
    Work("patch: holes passed over", cover_within(pages_behind_holes(*PASSED)), partial(passed_holes, *PASSED)),
    Work("load: runs of a page", "load F S T cover O R", partial(far_runs, 600)),
    Work("threads", "threads F S T O", partial(plain, 4096)),
    Work("check: a jump over each site", CHECK, partial(plain, 4096), before=COVER),
    Work("check: long equal data", CHECK, partial(with_data, 16, 1 << 20), before=COVER),
    Work("check: many segments", CHECK, partial(segments, 600, 200), before=COVER),
    Work("step", "step F S W 40000", partial(loop, MIXED)),
    Work("step: odd addresses", "step F S W 20000", partial(loop, ODD)),
    Work("step: a long answer", "step F S W 1", partial(long_answer, 16, 4096)),
    Work("gen", "gen 7 200", dict),
    Work("unpatch", "unpatch O R N", partial(plain, 4096), before=COVER),
    Work("settle", SETTLE, partial(pie, 1 << 20)),
    Work("settle: most entries", SETTLE, partial(pie, 1 << 20, MOST)),
    Work("unsettle", UNSETTLE, partial(pie, 1 << 20), before=SETTLE),
]


def starts_of_long_lines() -> Inputs:
    """A million starts, whose lines are as long as lines may be."""
    files = program([b"\x90"] * 1_000_000, 0)
    return {**files, "S": "".join(f"0x{TEXT + k:08x}\n" for k in range(1_000_000)).encode()}


def zeros() -> Inputs:
    """A file with 24 MB of data and 64 MB of zeros behind them, and a script with as many zeros as one may have."""
    data, parts = bytes(range(256)) * (24 << 12), [b"\xb8" + pack("<I", k) for k in range(16)]
    files = program(parts, 0, TEXT, [(6, 0x10000000, data, len(data)), (6, 0x20000000, b"", 64 << 20)])
    regions = "".join(f"zero {low:016x} {low + (1 << 24):016x} rw-\n" for low in range(1 << 32, 1 << 32 | 16 << 25, 1 << 25))
    return {**files, "W": script(regions.encode())}


# whose peak memory is measured
HELD = [
    Work("patch: 65,536 sites", COVER, partial(plain, 65536)),
    Work("patch: long events", "patch F S T ring:1 O R", partial(plain, 65536)),
    Work("patch: a million starts", COVER, starts_of_long_lines, environment=GIVES_BACK),
    Work("load: 65,536 sites", "load F S T cover O R", partial(plain, 65536)),
    Work("threads: 65,536 sites", "threads F S T O", partial(plain, 65536)),
    Work("check: 65,536 sites", CHECK, partial(plain, 65536), before=COVER),
    Work("unpatch: 65,536 sites", "unpatch O R N", partial(plain, 65536), before=COVER),
    Work("unpatch: long data", "unpatch O R N", partial(with_data, 16, 32 << 20), before=COVER),
    Work("settle: long data", SETTLE, partial(pie, 32 << 20)),
    Work("unsettle: long data", UNSETTLE, partial(pie, 32 << 20), before=SETTLE),
    Work("step: zeros that nothing changes", "step F S W 16", zeros),
]
