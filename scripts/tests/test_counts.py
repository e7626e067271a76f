"""Counts of blocks and lines: against gcov's of the same source, and against single steps."""
import collections
import json
import re

import pytest

from tests.calls import STATIC, leave, patch, path_of, record, rows_of, run, script
from tests.programs import Programs, inside
from tests.stepping import visits_of
from vaknuhol.program.blocks import blocks_of
from vaknuhol.program.debug_info import debug_info
from vaknuhol.program.listing import Listing
from vaknuhol.recording.patch_report import Report
from vaknuhol.recording.process_memory import read_memory
from vaknuhol.recording.record_file import Record
from vaknuhol.views.coverage import Coverage

pytestmark = pytest.mark.xdist_group("counts")
NEAR = "01000000-7fff0000"
REPEATED = (0xF2, 0xF3)  # single steps stand at each turn of a repeated instruction
PROTECTED = "-fcf-protection"


@pytest.fixture
def lines(programs: Programs) -> str:
    """The program `lines` in the working folder; the folder of its source."""
    return programs.bring("lines", "lines.c", PROTECTED)


@pytest.fixture(scope="module")
def gcov(programs: Programs, module_place: str):
    """What gcov tells of the same program, and how many of its blocks each line has."""
    home = programs.home("lines", "lines.c", PROTECTED)
    with inside(module_place):
        run("gcc", "-O1", "-g", "-fno-inline", PROTECTED, "--coverage", "-o", "counted", f"{home}/lines.c")
        assert run("./counted", status=(7,)) == run(f"{home}/lines", status=(7,))
        file = json.loads(run("gcov", "--json-format", "--stdout", "counted-lines.gcda"))["files"][0]
        blocks = re.findall(
            r"^ *[^:]+: *(\d+)-block", run("gcov", "--all-blocks", "--stdout", "counted-lines.gcda"), re.M
        )
    return {"blocks": collections.Counter(int(number) for number in blocks), **file}


@pytest.fixture(scope="module")
def visits(programs: Programs):
    """How often single steps stand at each address of `lines`."""
    with inside(programs.home("lines", "lines.c", PROTECTED)):
        return visits_of("./lines", 7)[0]


def test_single_steps_stand_equally_often_at_all_instructions_of_a_block(lines, visits):
    """And at none of what is taken for padding."""
    listing = Listing("lines")
    blocks, ran = blocks_of(listing), 0
    for block in blocks:
        counts = {visits[it.addr] for it in block.instructions if it.code[0] not in REPEATED}
        assert len(counts) < 2, f"the block at {block.first:x} is executed {sorted(counts)} times"
        ran += any(counts)
    in_blocks = {it.addr for block in blocks for it in block.instructions}
    assert not [a for a in visits if a not in in_blocks and listing.is_start(a)], "padding is executed"
    assert 100 < ran < len(blocks)


def test_functions_are_counted_as_by_gcov_and_single_steps(lines, gcov, visits, e9tool):
    patch("lines", "--functions", "--count")
    names = [path_of("lines", "count", it) for it in ("patched", "starts", "report")]
    assert run(e9tool, "check", "lines", *names) == "check yes\n"
    assert record("lines", "count", status=(7,)) == run("./lines", status=(7,))
    table = [line.split() for line in script("show_coverage", "lines", "record").splitlines()]
    own = {row[3]: int(row[1]) for row in table if row[-1].startswith("lines.c:")}
    calls = {it["name"]: it["execution_count"] for it in gcov["functions"]}
    assert own == calls, f"functions are called {calls} by gcov, and {own} here"
    counted = rows_of("record")
    assert all(row.count is not None for row in counted), "a function was left"
    far = [row for row in counted if row.count != visits[row.site]]
    assert 200 * len(far) < len(counted), f"{len(far)} functions differ from single steps"
    patch("lines", "--functions")
    record("lines", "cover", status=(7,), to="covered")
    assert [row.count for row in rows_of("covered")] == [int(row.count > 0) for row in counted]
    record("lines", "count", status=(7,), to="again")
    assert [row.count for row in rows_of("again")] == [
        row.count for row in counted
    ], "cover has changed the files of count"


def test_a_report_of_each_version_without_blocks_is_enough_for_a_record(lines, e9tool):
    """The same by hand: lists, e9tool's own words, a report."""
    script("starts_and_sites", "lines", "starts", "sites", "--symbols", "fib|collatz")
    run(e9tool, "patch", "lines", "starts", "sites", "count", "hand.patched", "hand.report")
    with open("hand.report", encoding="ascii") as file:
        text = file.read()
    with open("first.report", "w", encoding="ascii") as file:
        file.write(re.sub("^e9report 2\norigin .*\n", "e9report 1\n", text))
    with open("shared.report", "w", encoding="ascii") as file:
        file.write(text.replace("sites 2\n", "sites 3\nsite 00402000 2 Shared\n"))
    for report, left in (("hand.report", []), ("first.report", []), ("shared.report", [None])):
        script("run_and_record", report, "record", "hand.patched", status=(7,))
        told = [row.count for row in rows_of("record")]
        assert sorted(told[:2]) == [29, 465] and told[2:] == left, f"{report}: {told}, where collatz has 29 and fib 465"


@pytest.mark.parametrize("flags", [["-gdwarf-2"], ["-gdwarf-4"], ["-gdwarf-5", "-gz"]], ids=lambda flags: flags[0])
def test_lines_are_the_same_by_each_version_of_the_line_table(lines, place, flags):
    """Compressed or not."""
    addresses = [it.addr for it in Listing("lines").instructions]

    def places(path):
        return [debug_info(path).place_of(it) for it in addresses]

    with inside(lines):
        run("gcc", *STATIC, PROTECTED, *flags, "-o", f"{place}/other", "lines.c")
    assert places("other") == places("lines"), f"other lines with {' '.join(flags)}"


def test_jumps_are_counted_as_by_single_steps(lines, visits):
    patch("lines", "--jumps", "--count", "--reserve", NEAR, status=(1,))
    record("lines", "count", status=(7,))
    counted = [row for row in rows_of("record") if row.count is not None]
    assert " blocks were executed, " in script("show_coverage", "lines", "record"), "left blocks are not in the summary"
    far = [row for row in counted if row.count != visits[row.site]]
    assert 200 * len(far) < len(counted), f"{len(far)} blocks differ from single steps"
    report = Report(path_of("lines", "count", "report"))
    place = report.record_place()
    stepped, data = visits_of(path_of("lines", "count", "patched"), 7, lambda pid: read_memory(pid, *place))
    told = report.action.numbers(data)
    for site, number in report.patched.items():
        assert (
            told[number] == stepped[site]
        ), f"the site {site:x} is not counted as the patched program's single steps do"
    assert len(counted) > 100 and sum(told) > 1000


def blocks_of_lines(path):
    """How many blocks each source line has code in."""
    (lines,) = Coverage("lines", Record(path)).files.values()
    return {number: line.blocks for number, line in lines.items() if line.blocks}


@pytest.fixture
def recorded_lines(lines: str) -> str:
    """The record of all blocks with lines of lines.c."""
    patch("lines", "--blocks", "--count", "--source", lines, status=(0, 1))
    record("lines", "count", status=(7,))
    return lines


def test_the_same_lines_are_hit_and_missed_as_by_gcov(recorded_lines, gcov):
    """And counts are equal where a line is one block."""
    script("show_coverage", "lines", "record", "--lcov", "lines.info")
    with open("lines.info", encoding="utf-8") as file:
        ours = {int(number): int(count) for number, count in re.findall(r"^DA:(\d+),(\d+)$", file.read(), re.M)}
    theirs = {it["line_number"]: it["count"] for it in gcov["lines"]}
    both = ours.keys() & theirs.keys()
    wrong = {number: (ours[number], theirs[number]) for number in both if (ours[number] > 0) != (theirs[number] > 0)}
    assert not wrong, f"lines are hit by one and missed by the other (ours, gcov's): {wrong}"
    blocks = blocks_of_lines("record")
    missing = theirs.keys() & blocks.keys() - ours.keys()
    assert len(missing) <= 1, f"lines with an instruction are unknown: {missing}"
    single = {number for number in blocks if blocks[number] == gcov["blocks"][number] == 1}
    wrong = {number: (ours[number], theirs[number]) for number in both & single if ours[number] != theirs[number]}
    assert not wrong, f"counts of lines of one block differ (ours, gcov's): {wrong}"
    missed = sum(1 for count in ours.values() if count == 0)
    assert missed >= 3 and len(both & single) >= 10, f"{missed} missed, {len(both & single)} of one block"


def test_a_line_is_unknown_where_all_its_blocks_were_left(recorded_lines):
    """And neither hit nor missed."""
    leave({it.addr for it in Listing("lines").instructions if it.function == "never"}, "record", "left")
    shown = script("show_coverage", "lines", "left", "--lcov", "left.info").splitlines()
    assert any(re.search(r" unknown \(5 6 7 8[ 0-9]*\)$", line) for line in shown), shown[-3:]
    assert sum(1 for line in shown if " ?     left  never lines.c:" in line) >= 3
    with open("left.info", encoding="utf-8") as file:
        assert not re.search(r"^(DA:[5-9],|FN.*never)", file.read(), re.M), "an unknown line is in the tracefile"
