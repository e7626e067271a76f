"""Lines with several copies, functions that were inlined, and branches: against gcov's of the same source, line by
line. Each difference is known, and so is why."""
import json
import os
import shutil

import pytest

from tests.calls import SOURCES, run
from tests.command import call
from tests.programs import inside

pytestmark = pytest.mark.xdist_group("copies")
# Of the build without optimization, by lines: gcov's count and ours, and why; None is no count.
DIFFERENCES = {
    16: (10, 30, "gcov counts a block on its last line alone, and the inlined bodies begin in the middle of one"),
    21: (6, 1, "the head of a function has gcov's count of its first block, which a loop begins with"),
    23: (6, None, "a label has no code"),
    39: (None, 4, "the way out of a function without a value: gcov has no statement there"),
    44: (4, None, "a label of a switch has no code"),
    47: (1, None, "a label of a switch has no code"),
    50: (1, None, "a label of a switch has no code"),
    83: (40, 20, "gcov counts a statement again that is left for an inlined body and entered from it"),
    99: (0, 10, "gcov loses what a process did that a signal killed"),
    100: (0, 9, "gcov loses what a process did that a signal killed"),
    101: (0, 1, "gcov loses what a process did that a signal killed"),
}
KILLED = range(98, 102)
# Of moved.c with -O1.
NO_TRACE, IF_CONVERTED, RETURNS, HEAD = (
    "no code and no row is left of some of the calls, which gcov counted before they were folded",
    "a condition that became a conditional move: the code of its arm is executed always, of the arm itself no block "
    "is left",
    "gcov has all returns on the line of one of them, and none at the function's end",
    "no code and no row is left of the head of an inlined function",
)
MOVED = {
    12: (5, None, NO_TRACE),
    38: (1, 2, IF_CONVERTED),
    39: (None, 2, RETURNS),
    45: (None, 1, RETURNS),
    49: (None, 2, RETURNS),
    59: (2, 1, RETURNS),
    60: (None, 2, RETURNS),
    94: (0, None, "no code is left of `continue;`, and the call before it was never made"),
    100: (None, 1, RETURNS),
    111: (2, 1, "where the loop before goes round, the test isn't made: its outcome follows"),
    117: (None, 2, RETURNS),
    127: (19, None, HEAD),
    144: (None, 1, RETURNS),
}
# Two units that have one function, of which the linker keeps the first's.
UNITS = {
    "shared.h": """inline int scaled(int number)
{
    int total = 0;
    for (int i = 0; i < number; i++)
        total += 3;
    return total;
}

int others(int number);
""",
    "one.cc": """#include "shared.h"
int main() { return scaled(3) + others(4) == 21 ? 0 : 1; }
""",
    "other.cc": """#include "shared.h"
int others(int number) { return scaled(number); }
""",
}


def of_gcov(level, source="copies"):
    """gcov's lines, functions, and the ways of branches by lines."""
    folder = f"{source}.counted{level}"
    os.makedirs(folder, exist_ok=True)
    run("gcc", level, "-g", "--coverage", "-o", f"{folder}/program", f"{source}.c")
    run(f"{folder}/program")
    told = json.loads(run("gcov", "-b", "--json-format", "--stdout", f"{folder}/program-{source}.gcda"))["files"]
    (file,) = [it for it in told if it["file"] == f"{source}.c"]
    ways = {
        it["line_number"]: sorted(way["count"] for way in it["branches"] if not way["throw"]) for it in file["lines"]
    }
    return (
        {it["line_number"]: it["count"] for it in file["lines"]},
        {it["name"]: it["execution_count"] for it in file["functions"]},
        ways,
    )


def of_ours(level, source="copies"):
    """The same of a record, and the file in the report's JSON."""
    name = f"{source}{level}"
    run("gcc", level, "-g", "-static", "-no-pie", "-o", name, f"{source}.c")
    call("count", name, "--quiet")
    call("report", name, "--json", f"{name}.json", "--lcov", f"{name}.info")
    with open(f"{name}.json", encoding="utf-8") as file:
        told = json.load(file)
    (own,) = told["files"]
    lines = {it["line_number"]: it["count"] for it in own["lines"] if not it["gcovr/noncode"]}
    ways = {it["line_number"]: sorted(way["count"] for way in it["branches"]) for it in own["lines"]}
    return lines, {it["symbol"]: it for it in own["functions"]}, ways, told


def assert_known(theirs, ours, known):
    """The lines that differ, those that one of both lacks among them, are the known ones."""
    wrong = {
        number: (theirs.get(number), ours.get(number))
        for number in theirs.keys() | ours.keys()
        if theirs.get(number) != ours.get(number)
    }
    assert wrong == {number: it[:2] for number, it in known.items()}, wrong


@pytest.fixture(scope="module")
def sources(module_place: str) -> str:
    for name in ("copies.c", "moved.c", "spread.c"):
        shutil.copyfile(f"{SOURCES}/{name}", f"{module_place}/{name}")
    return module_place


@pytest.fixture(scope="module")
def plain(sources):
    """gcov's lines, functions and ways of copies.c without optimization, and ours."""
    with inside(sources):
        return of_gcov("-O0"), of_ours("-O0")


def test_without_optimization_lines_functions_and_branches_are_as_by_gcov(plain, sources):
    """All that is equal, and each difference as it is known."""
    (theirs, functions, their_ways), (ours, our_functions, ways, told) = plain
    assert_known(theirs, ours, DIFFERENCES)
    assert {name: it["execution_count"] for name, it in our_functions.items()} == {
        **functions,
        "square": 30,
        "kind": 6,
    }, our_functions
    square = our_functions["square"]
    assert (square["inlined"], square["inlined_count"]) == (2, 30), square
    assert all(it["count"] is not None for it in told["blocks"]), "a block's count is unknown"
    same = [number for number in ways if ways[number] and len(ways[number]) == len(their_ways.get(number, []))]
    wrong = {number: (their_ways[number], ways[number]) for number in same if ways[number] != their_ways[number]}
    assert len(same) > 12 and wrong.keys() == {
        16,
        98,
        99,
    }, wrong  # gcov has one of the two copies of 16, and loses the child
    with open(f"{sources}/copies-O0.info", encoding="utf-8") as file:
        text = file.read()
    assert "FNDA:30,square\n" in text and "DA:16,30\n" in text and "BRDA:16,0,0,20\nBRDA:16,0,1,10\n" in text, text


def test_with_inlining_the_same_lines_are_executed_as_by_gcov(sources):
    """But for what gcov loses; and sums over copies."""
    with inside(sources):
        theirs, _, _ = of_gcov("-O1")
        ours, functions, _, _ = of_ours("-O1")
    wrong = {
        number: (theirs[number], ours[number])
        for number in theirs.keys() & ours.keys()
        if (theirs[number] > 0) != (ours[number] > 0) and number not in KILLED
    }
    assert not wrong, f"lines are hit by one and missed by the other (gcov's, ours): {wrong}"
    equal = sum(theirs[number] == ours[number] for number in theirs.keys() & ours.keys())
    assert ours[15] == ours[16] == ours[18] == 30 and ours[17] == 10 and ours[28] == ours[69] == 1 and equal >= 30, ours
    assert functions["square"]["execution_count"] == 30 and functions["early"]["execution_count"] == 4, functions


def test_moved_code_differs_from_gcov_as_it_is_known(sources):
    """Code that was moved from its lines, or of which only rows are left."""
    with inside(sources):
        theirs, _, _ = of_gcov("-O1", "moved")
        ours, _, _, _ = of_ours("-O1", "moved")
    assert_known(theirs, ours, MOVED)


def test_statements_over_several_lines_count_as_by_gcov_without_optimization(sources):
    """Each line that both count, and there are no other differences."""
    with inside(sources):
        theirs, functions, _ = of_gcov("-O0", "spread")
        ours, our_functions, _, _ = of_ours("-O0", "spread")
    both = theirs.keys() & ours.keys()
    wrong = {number: (theirs[number], ours[number]) for number in both if theirs[number] != ours[number]}
    assert not wrong and len(both) > 45, f"gcov's and ours: {wrong}"
    assert {name: it["execution_count"] for name, it in our_functions.items()} == functions, our_functions


def test_a_function_that_two_units_have_counts_once():
    for name, text in UNITS.items():
        with open(name, "w", encoding="ascii") as file:
            file.write(text)
    run("g++", "-O0", "-g", "-static", "-no-pie", "-o", "units", "one.cc", "other.cc")
    call("count", "units", "--quiet")
    told = call("report", "units", "--lcov", "-")[0]
    (of_header,) = [part for part in told.split("end_of_record") if "shared.h" in part]
    assert "FNDA:2,_Z6scaledi\n" in of_header and "DA:1,2\n" in of_header and "DA:5,7\n" in of_header, of_header


def test_inlined_functions_are_named_with_where_they_were_inlined(plain, sources):
    """By the summary and by --symbols; and annotate shows their calls."""
    shutil.copy2(f"{sources}/copies-O0", "copies-O0")
    shutil.copytree(f"{sources}/copies-O0.vak", "copies-O0.vak")
    shutil.copyfile("copies-O0.vak/last.record", "copies.record")
    told = call("report", "copies-O0")[0]
    assert "20  square  copies.c:18 (inlined in main, line 83)" in told, told
    _, told = call("count", "copies-O0", "--symbols", "square")
    assert "2 inlined calls" in told and "2 of 2 blocks were executed" in told, told
    told = call("annotate", "copies-O0", "square", "--record", "copies.record")[0]
    assert "square, inlined in main, line 81: entered 10 times\n" in told, told
    assert "square, inlined in main, line 83: entered 20 times\n" in told, told
    call("annotate", "copies-O0", "--record", "copies.record", "--html", "copies.html")
    with open("copies.html", encoding="utf-8") as file:
        text = file.read()
    assert "least, entered 1 time<" in text and "copies.c:66" in text


def test_an_inlined_call_is_not_entered_by_code_of_it_amidst_the_callers():
    """The compiler copies its value to a variable of main in a block that begins with main's line. Its return has a
    row where its code ends."""
    shutil.copyfile(f"{SOURCES}/own.c", "own.c")
    run("gcc", "-O1", "-g", "-static", "-no-pie", "-o", "own", "own.c")
    call("count", "own", "--quiet")
    call("report", "own", "--json", "own.json")
    with open("own.json", encoding="utf-8") as file:
        told = json.load(file)
    counts = {it["symbol"]: it["execution_count"] for it in told["files"][0]["functions"]}
    assert counts == {"main": 1, "collatz": 2999}, counts
    lines = {it["line_number"]: it["count"] for it in told["files"][0]["lines"] if not it["gcovr/noncode"]}
    assert lines[13] == 2999, lines
    shown = call("annotate", "own", "collatz", "--record", "own.vak/last.record")[0]
    assert "collatz, inlined in main, line 20: entered 2999 times\n" in shown, shown
