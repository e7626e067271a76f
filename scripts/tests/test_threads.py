"""The command on a program with threads: counts that are exact, the same outputs as without, and what is said without
--threads."""
import json
import os
import re
import subprocess
from xml.etree import ElementTree

import pytest

from tests.calls import SOURCES, run
from tests.command import PARTS, alike, call, changed, known, patched_below
from tests.programs import Programs
from vaknuhol.program.kernel import entries_of, entry_of
from vaknuhol.program.program_file import read_bytes
from vaknuhol.recording.record_file import Record

TIMES, SUM = 100000, "19999800000\n"
COUNTED = {"*(long *)sum += i;": 4 * TIMES, "pthread_create(": 4, "pthread_join(": 4, "printf(": 1, "pause();": 0}
PATCHED_FOR = "so it is patched for threads (--no-threads leaves that)\n"
LAST = "threads.vak/last.record"
MEANT = "--threads is meant for such a program\n"
LOST = "several threads wrote this record, and what two do at once may be lost: "


@pytest.fixture
def threads(programs: Programs) -> None:
    """The program `threads` in the working folder, and what `count --threads` patches of it."""
    programs.bring("threads_many", "threads.c", "-pthread", f"-DTIMES={TIMES}")
    os.rename("threads_many", "threads")


@pytest.fixture
def counted(threads) -> str:
    """A record of all four threads."""
    call("count", "threads", "--threads", "--quiet", "--record", "counted.record")
    return "counted.record"


def line_of(text):
    """The number of the one line of threads.c with a text."""
    with open(f"{SOURCES}/threads.c", encoding="ascii") as file:
        (number,) = [number for number, line in enumerate(file, 1) if text in line]
    return number


def test_each_line_has_as_many_executions_as_the_source_says(threads):
    """Four threads count in the same blocks; each output has the same."""
    printed, shown = call("count", "threads", "--threads")
    assert printed == SUM and "warning" not in shown and "--threads" not in shown, shown
    assert "it is of 1 process, with 4 threads\n" in shown and f"{4 * TIMES}  add  threads.c:" in shown, shown
    call(
        "report",
        "threads",
        *"--json threads.json --lcov threads.info --cobertura threads.xml --drcov threads.drcov".split(),
    )
    with open("threads.json", encoding="utf-8") as file:
        told = json.load(file)
    lines = {it["line_number"]: it["count"] for it in told["files"][0]["lines"]}
    for text, count in COUNTED.items():
        assert lines[line_of(text)] == count, f"{text} is executed {count} times, and not {lines}"
    with open("threads.info", encoding="ascii") as file:
        assert lines == {
            int(number): int(count) for number, count in re.findall(r"^DA:([0-9]+),([0-9]+)", file.read(), re.M)
        }
    methods = ElementTree.parse("threads.xml").getroot().iter("method")
    hits = {it.get("name"): [line.get("hits") for line in it.iterfind("lines/line")][0] for it in methods}
    assert hits == {"add": "4", "main": "1"}
    with open("threads.drcov", "rb") as file:
        assert f"BB Table: {sum(1 for it in known(LAST).values() if it)} bbs\n".encode() in file.read()


def test_how_many_blocks_are_left_for_which_reason_is_told_as_they_are_patched(programs):
    """And counts are those of `patch`."""
    programs.bring("sharing", "sharing.s", "-nostdlib")
    _, shown = call("count", "sharing", "--blocks", "--threads", status=115)
    assert (
        "left: NoPlan 1 Shared 3\n" in shown
        and "4 were left (NoPlan 1 Shared 3): 2 counts follow from the others, 2 are unknown\n" in shown
    ), shown
    call("count", "sharing", "--blocks", "--record", "plain", status=115)
    ours, theirs = known("sharing.vak/last.record"), known("plain")
    assert ours and all(theirs[first] == count for first, count in ours.items()), (ours, theirs)


def test_cover_says_of_the_same_blocks_what_was_executed(counted):
    """By a patched file of its own, whose report has the action `cover`."""
    printed, shown = call("cover", "threads", "--threads")
    assert printed == SUM and "patched" in shown and "hottest" not in shown and "threads, cover\n" in shown, shown
    executed = {first: int(count > 0) for first, count in known("counted.record").items()}
    record = Record(LAST)
    assert known(LAST) == executed and record.action.name == "cover" and record.for_threads, known(LAST)
    told = f"{len(executed)} blocks are known in both: 0 were executed in counted.record only, 0 in last.record only\n"
    assert call("diff", "threads", "counted.record", LAST)[0] == told
    checked, _ = call("check", "threads")
    assert checked.count("check yes") == len(checked.splitlines()) == 2, checked


def test_records_of_threads_are_added_up(counted):
    call("merge", "twice", "counted.record", "counted.record")
    assert (
        known("twice") == {first: 2 * count for first, count in known("counted.record").items()}
        and Record("twice").for_threads
    )
    assert LOST not in call("report", "threads", "twice")[0]


def test_several_files_for_threads_have_the_same_counts_as_one(counted):
    _, shown = changed(PARTS, "count", "threads", "--threads", "--into", "halves", "--record", "sum")
    assert "the program runs 2 times" in shown and alike(known("sum"), known("counted.record")), shown


def test_a_dump_of_a_program_that_waits_has_all_its_counts(threads):
    (path,) = call("count", "threads", "--threads", "--patch-only")[0].split()
    it = subprocess.Popen([f"./{path}", "wait"], stdout=subprocess.PIPE, text=True)
    try:
        assert it.stdout and it.stdout.readline() == SUM
        shown, _ = call("dump", str(it.pid), "--record", "dumped")
        assert f"{4 * TIMES}  add  threads.c:" in shown and Record("dumped").for_threads, shown
    finally:
        it.kill()
        it.communicate()


def test_a_table_that_is_too_long_for_threads_is_refused(threads):
    _, told = call("count", "threads", "--threads", "--entries", "5", "--into", "none", status=125)
    assert "in the loader form, too" in told and not patched_below("none"), told


def test_a_table_that_is_too_long_for_threads_is_written_in_the_loader_form(counted):
    """With the same counts; what `check` writes again has the same bytes, unless some are changed, and the original
    comes back."""
    (path,) = call("count", "threads", "--threads", "--patch-only")[0].split()
    few = entries_of(path) - 1
    words = ["count", "threads", "--threads", "--entries", str(few), "--into", "few"]
    printed, told = call(*words, "--record", "loaded")
    assert printed == SUM and f"in the loader form, since the table may have {few} entries" in told, told
    assert known("loaded") == known(counted) and Record("loaded").for_threads
    (path,) = call(*words, "--patch-only")[0].split()
    assert entries_of(path) <= few and entry_of(path) != entry_of("threads")
    again = f"{path}: loader form, written again with "
    assert call("check", "threads", "--into", "few")[0] == f"{again}the same bytes\n"
    call("unpatch", path, "again")
    assert read_bytes("again") == read_bytes("threads")
    for name in (path, f"{path.removesuffix('.patched')}.report"):
        data = read_bytes(name)
        with open(name, "wb") as file:
            file.write(data[:-2] + bytes([data[-2] ^ 1]) + data[-1:])
        assert call("check", "threads", "--into", "few", status=1)[0] == f"{again}other bytes\n"
        with open(name, "wb") as file:
            file.write(data)


def test_with_no_threads_a_program_is_warned_of_as_it_is_patched_and_as_it_starts_one(threads):
    printed, told = call("cover", "threads", "--no-threads", "--symbols", "main|add")
    assert printed == SUM and told.count(f"crash; {MEANT}") == 2 and LOST not in told, told


def test_with_no_threads_a_record_says_that_counts_may_be_lost(counted):
    _, told = call("count", "threads", "--no-threads", "--symbols", "main", "--record", "alone")
    assert told.count(f"crash; {MEANT}") == 2 and told.endswith(LOST + MEANT), told
    assert call("report", "threads", "alone", "counted.record")[0].endswith(LOST + MEANT)


def test_a_ring_of_threads_that_is_not_for_them_is_warned_of(threads):
    _, told = call("ring", "4", "threads", "--no-threads", "--symbols", "main")
    assert told.count(f"crash; {MEANT}") == 2 and told.endswith(LOST + MEANT), told


def test_without_a_word_a_program_that_starts_threads_is_patched_for_them(threads):
    """With names of functions or without."""
    printed, shown = call("count", "threads", "--into", "own")
    assert (
        printed == SUM
        and f"vaknuhol: threads has the function pthread_create, {PATCHED_FOR}" in shown
        and "warning" not in shown
    ), shown
    assert Record("own/last.record").for_threads and f"{4 * TIMES}  add  threads.c:" in shown, shown
    run("strip", "-o", "bare", "threads")
    for _ in range(2):
        printed, shown = call("cover", "bare", "--functions", "--into", "own")
        assert (
            printed == SUM and "vaknuhol: bare has a call of clone for threads" in shown and PATCHED_FOR in shown
        ), shown


def test_without_a_word_a_program_without_threads_is_not(counted_tour):
    assert PATCHED_FOR not in call("count", "tour", status=4)[1]


def test_without_a_word_a_ring_is_patched_for_threads_too(threads):
    """And the record tells the last of a longer ring."""
    _, shown = call("ring", "4", "threads", "--own")
    (history,) = Record(LAST).histories
    assert PATCHED_FOR in shown and "warning" not in shown and Record(LAST).for_threads, shown
    assert Record(LAST).action.name == "ring:4" and len(history.rows) == 4, history.rows
