"""Ten programs without optimization, and two with it, beside gcov, line by line: each count that differs is known, and
so is why.

Lines that only one of both counts aren't compared: labels alone have no code, and the end of a function without a value
has no statement."""
import glob
import json
import os
import shutil

import pytest

from tests.calls import TOP, run
from tests.command import call

LINES = f"{TOP}/bench/lines"
JUMPED, HEAD, LAST = (
    "gcov's counts are wrong in functions that are left by longjmp, and behind setjmp",
    "gcov counts the first block of a function, which a loop or a label begins",
    "gcov counts a block on its last line alone",
)
BARE, CONVERTED, FOLDED = (
    "gcov counts a line again that is left for a block without a line",
    "a condition that became a conditional move is executed always",
    "the first test of a loop, which always holds, has no code",
)
# The differences of each program: by lines gcov's count, ours, and why; by functions the same.
PROGRAMS: dict[str, dict[int | str, tuple[int, int, str]]] = {
    "sorts.c": {},
    "graph.c": {},
    "grid.c": {},
    "states.c": {},
    "strings.c": {},
    "reader.c": {},
    "packing.c": {34: (10, 1, HEAD)},
    "machine.c": {"by_labels": (50, 1, HEAD)},
    "leaving.c": {12: (0, 3, JUMPED)},
    "templates.cc": {12: (0, 1, LAST)},
}
# Of those with -O1, by lines. Among what is equal: a round by an inlined call, code at a call's entry, a call's ranges
# with a hole.
OPTIMIZED = {
    "graph.c": {14: (23, 12, BARE)},
    "bits.c": {15: (257, 256, FOLDED), 33: (0, 300, CONVERTED), 36: (83, 300, CONVERTED)},
}


def built(source, name, *flags):
    run("g++" if source.endswith("cc") else "gcc", "-O0", "-g", *flags, "-o", name, source, "-lm")


def of_gcov(source, *flags):
    """gcov's lines and functions; of a function's instances the sum."""
    folder = f"{source}{''.join(flags)}.counted"
    lines: dict[int, int] = {}
    functions: dict[str, int] = {}
    os.makedirs(folder)
    built(source, f"{folder}/program", "--coverage", *flags)
    run(f"{folder}/program")
    for path in glob.glob(f"{folder}/*.gcda"):
        for file in json.loads(run("gcov", "--json-format", "--stdout", path))["files"]:
            if file["file"] != source:
                continue
            for it in file["lines"]:
                lines[it["line_number"]] = lines.get(it["line_number"], 0) + it["count"]
            functions |= {it["name"]: it["execution_count"] for it in file["functions"]}
    return lines, functions


def of_ours(source, *flags):
    name = f"{source}{''.join(flags)}.static"
    built(source, name, "-static", "-no-pie", *flags)
    call("count", name, "--quiet")
    call("report", name, "--json", f"{source}.json")
    with open(f"{source}.json", encoding="utf-8") as file:
        told = json.load(file)
    (own,) = [it for it in told["files"] if os.path.basename(it["file"]) == source]
    unknown = sum(1 for it in told["blocks"] if it["count"] is None)
    assert (
        1000 * unknown <= len(told["blocks"]) and not told["contradicting blocks"]
    ), f"{source}: {unknown} blocks are unknown"
    return (
        {it["line_number"]: it["count"] for it in own["lines"] if not it["gcovr/noncode"]},
        {it["symbol"]: it["execution_count"] for it in own["functions"]},
    )


@pytest.mark.parametrize("source", PROGRAMS)
def test_each_line_is_counted_as_by_gcov(source):
    """But for what is known."""
    known = PROGRAMS[source]
    shutil.copyfile(f"{LINES}/{source}", source)
    (theirs, functions), (ours, our_functions) = of_gcov(source), of_ours(source)
    both = theirs.keys() & ours.keys()
    assert len(both) > 30 and len(both) > 0.75 * len(theirs), f"{source}: {len(both)} of {len(theirs)} lines"
    named = (
        functions.keys() & our_functions.keys()
    )  # static ones of a template have no mangled name in the debugging information
    assert len(functions) == len(our_functions) and 2 * len(named) > len(
        functions
    ), f"{source}: {our_functions.keys() ^ functions.keys()}"
    found = {it: (theirs[it], ours[it]) for it in both if theirs[it] != ours[it]}
    found |= {it: (functions[it], our_functions[it]) for it in named if functions[it] != our_functions[it]}
    assert found == {it: told[:2] for it, told in known.items()}, f"{source}: {found}"


@pytest.mark.parametrize("source", OPTIMIZED)
def test_each_line_with_optimization_is_counted_as_by_gcov(source):
    """But for what is known."""
    shutil.copyfile(f"{LINES}/{source}", source)
    (theirs, _), (ours, _) = of_gcov(source, "-O1"), of_ours(source, "-O1")
    both = theirs.keys() & ours.keys()
    assert len(both) > 30, f"{source}: {len(both)} lines"
    found = {it: (theirs[it], ours[it]) for it in both if theirs[it] != ours[it]}
    assert found == {it: told[:2] for it, told in OPTIMIZED[source].items()}, f"{source} -O1: {found}"
