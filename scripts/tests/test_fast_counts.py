"""`count --fast` tells what a count of all blocks tells, by fewer sites: the same counts of blocks, lines, functions
and branches."""
import json
import shutil

import pytest

from tests.calls import SOURCES, TOP, run
from tests.command import call
from vaknuhol.recording.record_file import Record

# Sources, their flags, the words of the run, and its status. None starts threads, and none is ended by a signal.
PROGRAMS = (
    (f"{SOURCES}/tour.cc", "-O1", ("walk", "9"), 4),
    (f"{SOURCES}/suite.c", "-O2", ("gcd", "84"), 0),
    (f"{SOURCES}/lines.c", "-O0", (), 7),
    *(
        (f"{TOP}/bench/lines/{name}", level, (), 0)
        for name, level in (
            ("sorts.c", "-O2"),
            ("machine.c", "-O1"),
            ("leaving.c", "-O1"),
            ("throws.cc", "-O0"),
            ("templates.cc", "-O2"),
        )
    ),
)


def kept_fact(name, words, status, *choice):
    """The blocks of a report with their counts, the rest of its JSON, and its tracefile; and how many sites were
    patched."""
    into = f"{name}.{'fast' if '--fast' in choice else 'all'}"
    call(
        "count",
        name,
        "--blocks",
        "--own",
        *choice,
        "--into",
        into,
        "--quiet",
        *(("--", *words) if words else ()),
        status=status,
    )
    call("report", name, f"{into}/last.record", "--json", f"{into}/told.json", "--lcov", f"{into}/told.info")
    with open(f"{into}/told.json", encoding="utf-8") as file:
        told = json.load(file)
    blocks = {it["first"]: (it["count"], it["end"], it["function"], it["line"]) for it in told.pop("blocks")}
    with open(f"{into}/told.info", encoding="utf-8") as file:
        return blocks, told, file.read(), sum(1 for row in Record(f"{into}/last.record").rows if row.count is not None)


@pytest.mark.parametrize(
    "source, level, words, status", PROGRAMS, ids=lambda it: it.rpartition("/")[2] if isinstance(it, str) else ""
)
def test_fewer_sites_give_the_same_report(source, level, words, status):
    name = source.rpartition("/")[2].partition(".")[0] + level
    shutil.copyfile(source, source.rpartition("/")[2])
    run(
        "g++" if source.endswith("cc") else "gcc",
        level,
        "-g",
        "-static",
        "-no-pie",
        "-o",
        name,
        source.rpartition("/")[2],
    )
    blocks, told, lines, every = kept_fact(name, words, status)
    spared_blocks, spared_told, spared_lines, spared = kept_fact(name, words, status, "--fast")
    known = {first: it for first, it in blocks.items() if it[0] is not None}
    assert len(known) > 10 and known == {first: spared_blocks[first] for first in known}, f"{name}: blocks"
    assert told == spared_told and lines == spared_lines, f"{name}: lines, functions or branches"
    assert 0 < spared < every, f"{name}: {spared} sites of {every}"
