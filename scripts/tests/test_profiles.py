"""A profile of a program with calls of each kind, with symbols and stripped of them: annotated, as a call graph, as
folded stacks, and as callgrind_annotate reads it."""
import os
import re
import shutil

import pytest

from tests.calls import run
from tests.command import call
from tests.needs import need
from tests.programs import build, inside

FLAGS = ("-O1", "-fno-stack-protector", "-fasynchronous-unwind-tables", "-nostdlib")
# By hand: how often each of them is called, leaf by 2 * both, last, 4 * odd, 30 * visit
CALLS = {"leaf": 37, "both": 1, "last": 1, "fib": 465, "even": 5, "odd": 5, "visit": 30, "sum_of": 1, "work": 1}
NAMES = {"_start", *CALLS}


@pytest.fixture(scope="module")
def counted(module_place):
    """The program and its record; without symbols, too, where its functions are known by their frames."""
    with inside(module_place):
        build("profiled.c", "profiled", *FLAGS)
        call("count", "profiled", "--blocks", "--quiet", "--record", "profiled.record")
        run("strip", "-o", "bare", "profiled")
    return module_place


@pytest.fixture
def here(counted, place):
    for name in ("profiled", "bare", "profiled.record"):
        shutil.copy(os.path.join(counted, name), ".")


def entered(told: str) -> dict[str, int]:
    return {name: int(count) for name, count in re.findall(r"^(.+): entered ([0-9]+) times?$", told, re.M)}


def addresses() -> dict[str, str]:
    return {name: addr for addr, name in re.findall(r"^0+([0-9a-f]{8}) [Tt] (\w+)$", run("nm", "profiled"), re.M)}


def test_each_function_that_ran_is_annotated_with_and_without_symbols(here):
    """Also one that is called by a pointer alone."""
    with_names = entered(call("annotate", "profiled", "--record", "profiled.record")[0])
    assert with_names == {"_start": 1, **CALLS}
    places = addresses()
    assert entered(call("annotate", "bare", "--record", "profiled.record")[0]) == {
        f"the function at {places[name]}": count for name, count in with_names.items()
    }


def test_a_function_is_annotated_by_an_address(here):
    place = addresses()["visit"]
    for program, name in (("profiled", "visit"), ("bare", f"the function at {place}")):
        told = call("annotate", program, f"{int(place, 16) + 1:x}", "--record", "profiled.record")[0]
        assert entered(told) == {name: 30}
    assert "has no symbols: give an address" in call("annotate", "bare", "visit", "--record", "profiled.record", status=2)[1]


def report(*words: str) -> str:
    return call("report", "profiled", "profiled.record", *words)[0]


def parts_of(told: str) -> dict[str, list[list[str]]]:
    """The functions of a call graph: the rows around each, as words."""
    found = {}
    for part in told.strip().split("\n\n")[2:]:
        rows = [line.split() for line in part.splitlines()]
        (head,) = (row for row in rows if "." in row[0])
        found[head[4]] = rows
    return found


def test_the_call_graph_has_each_call_with_its_exact_count(here):
    told = report("--calls")
    parts = parts_of(told)
    assert parts.keys() == NAMES
    calls = {(name, row[2], row[1]) for name, rows in parts.items() for row in rows if len(row) >= 3 and "/" in row[1]}
    assert {("both", "leaf", "2/37"), ("last", "leaf", "1/37"), ("odd", "leaf", "4/37"), ("visit", "leaf", "30/37")} <= calls
    assert {("sum_of", "visit,", "30/30"), ("work", "fib", "1/1"), ("work", "even", "1/5")} <= calls, calls
    heads = {row[4]: row[3] for rows in parts.values() for row in rows if len(row) >= 5 and "." in row[0]}
    assert heads["fib"] == "1+464" and heads["leaf"] == "37" and heads["_start"] == "1"
    assert re.search(r"^ *[0-9.]+ +[0-9]+ +[0-9]+ +1  <cycle 1>, of 2 functions$", told, re.M), told
    assert ["30/30", "visit,", "by", "indirect", "calls"] == [row[1:] for row in parts["sum_of"]][-1]


def test_folded_stacks_hold_all_that_was_executed(here):
    stacks = dict(line.rsplit(" ", 1) for line in report("--folded", "-").splitlines())
    assert {"_start;work;sum_of;visit;leaf", "_start;work;even;odd;leaf", "_start;work;fib"} <= stacks.keys()
    (total,) = re.findall(r"of ([0-9]+) instructions in all", report())
    assert abs(sum(map(int, stacks.values())) - int(total)) <= len(stacks)


def inclusive(path: str) -> dict[str, int]:
    told = run("callgrind_annotate", "--inclusive=yes", "--auto=no", "--show-percs=no", "--threshold=100", path)
    return {name: int(cost.replace(",", "")) for cost, name in re.findall(r"^ *([0-9,]+) +\S+:(\w+)(?: \[|$)", told, re.M)}


def test_callgrind_annotate_shows_inclusive_costs(here):
    """All that was executed is the start's, and what has one caller is its caller's."""
    report("--callgrind", "out")
    (total,) = re.findall(r"of ([0-9]+) instructions in all", report())
    costs = inclusive("out")
    assert costs.keys() >= NAMES and costs["_start"] == int(total) and costs["work"] > 0.99 * int(total)
    own = dict((name, int(cost)) for cost, name in re.findall(r"^ *([0-9]+) +[0-9.]+ %  (\w+)$", report(), re.M))
    assert costs["fib"] == own["fib"] and abs(costs["leaf"] - own["leaf"]) <= 4, "the rounded costs of four callers"
    assert costs["sum_of"] == own["sum_of"] + costs["visit"] and costs["work"] == int(total) - own["_start"]


@pytest.mark.parametrize("option", ["--calls", "--callgrind=out", "--folded=out"])
def test_a_profile_needs_counts_of_all_executions(here, option):
    with open("profiled.record", encoding="ascii") as file:
        text = file.read()
    for action, why in (("cover", "has no counts: record by vaknuhol count"), ("count when rdi == 2", "record without --when")):
        with open("other.record", "w", encoding="ascii") as file:
            file.write(text.replace("action count\n", f"action {action}\n"))
        assert why in call("report", "profiled", "other.record", option, status=2)[1]
    assert "out" not in os.listdir(".")


def test_a_profile_of_first_blocks_alone_is_told_as_such(here):
    assert "blocks of these functions" not in call("report", "profiled", "profiled.record", "--calls")[1]
    with open("profiled.record", encoding="ascii") as file:
        lines = file.read().splitlines(keepends=True)
    begins = tuple(addresses().values())
    with open("other.record", "w", encoding="ascii") as file:
        file.write("".join(line for line in lines if line.startswith(begins) or not re.match("[0-9a-f]{8} ", line)))
    told, noted = call("report", "profiled", "other.record", "--calls")
    assert "few blocks of these functions were recorded" in noted and " 30/37 " in told, (told, noted)
