"""Rings that threads share: how many events they have and in which order, what checks and undoes their patched files,
and what is told of them."""
import glob
import os
import shutil
import signal
import subprocess
import sys

import pytest

from tests.calls import of_slots, run, script
from tests.command import COMMAND, call, changed
from tests.programs import Programs
from tests.test_thread_reports import change
from vaknuhol.program.kernel import entries_of
from vaknuhol.program.program_file import read_bytes
from vaknuhol.recording.patch_report import Report
from vaknuhol.recording.record_file import Record
from vaknuhol.recording.record_folder import paths_in

WELL, THREADS, SHORT, LONG = 7, 4, 256, 65536
FULL, MORE, MOST = SHORT // THREADS, SHORT // THREADS + 1, LONG // THREADS + 1
POINTS = (0, 8, 9, 12, 20, 25, 34, 37, 48, 56, 58, 59)  # where each instruction of a ring's event begins
UNFINISHED = (
    "several threads wrote this ring: where the runner saw one crash, it ends with the block in which that stood, as "
    "any of them executed it last, or if it isn't patched with its function or what called that; where one was ended "
    "between claiming a slot and filling it, an older event or none stands there\n"
)


def bring_meets(programs: Programs, times: int = 100) -> str:
    """The program in which each of four threads comes to the block `come` so many times."""
    programs.bring(f"meets_{times}", "meets.c", "-pthread", f"-DTIMES={times}")
    return f"meets_{times}"


def sites_of(path: str) -> list[int]:
    """The sites of the last events of the one process in a record; each event is known."""
    record = Record(path)
    (history,) = record.histories
    assert record.for_threads and None not in history.rows
    return [row.site for row in history.rows if row]


@pytest.mark.parametrize(
    "times, asked, slots",
    [(50, 100, SHORT), (50, SHORT, SHORT), (FULL, SHORT, SHORT), (MORE, SHORT, SHORT), (MOST, 1, SHORT)]
    + [(50, 100, LONG), (MORE, SHORT, LONG), (MORE, SHORT + 1, LONG), (MORE, LONG, LONG), (MOST, LONG, LONG)]
    + [(MOST, 1, LONG)],
)
def test_a_ring_has_as_many_rows_as_there_were_events(programs, times, asked, slots):
    """Up to so many as were asked for; threads share one that may be longer. No register and no flag is lost."""
    words = ["ring", str(asked), name := bring_meets(programs, times), "--symbols", "come"]
    _, told = changed(of_slots(slots), *words, "--record", "record", status=WELL)
    (report,) = glob.glob(f"{name}.vak/*/*.report")
    assert Report(report).action.slots == slots
    rows = sites_of("record")
    assert len(rows) == min(asked, THREADS * times) and len(set(rows)) == 1, (len(rows), told)
    assert Record("record").action.name == f"ring:{asked}" and UNFINISHED not in told, told


def drawn(thread: int, steps: int) -> list[str]:
    """Through which functions a thread of the program `walks` goes, by its own rule."""
    state, names = thread + 1, []
    for _ in range(steps):
        state = (state * 1103515245 + 12345) % 2**32
        names.append(f"step_{thread}_{(state >> 16) % 3}")
    return names


def walked(
    programs: Programs, asked: int, threads: int, steps: int, *timer: str, slots: int = LONG
) -> tuple[list[str], int]:
    """Through which functions the threads of `walks` went last, by its ring, and how many handlers came in between."""
    programs.bring("walks", "walks.c", "-pthread")
    words = ["--symbols", "step_._.|tick", "--quiet", "--record", "record", "--", str(threads), str(steps), *timer]
    printed, _ = changed(of_slots(slots), "ring", str(asked), "walks", *words)
    names = {int(line.split()[0], 16): line.split()[2] for line in run("nm", "walks").splitlines()}
    return [names[site] for site in sites_of("record")], int(printed)


@pytest.mark.parametrize(
    "asked, steps, slots",
    [(5, 1000, SHORT), (SHORT, 1000, SHORT), (5, 1000, LONG), (SHORT + 44, 1000, LONG), (LONG, LONG + 1000, LONG)],
)
def test_a_ring_has_the_last_events_of_a_thread_in_their_order(programs, asked, steps, slots):
    """The ring is gone round, or the last ones of a longer ring are told."""
    assert walked(programs, asked, 1, steps, slots=slots) == (drawn(0, steps)[-asked:], 0)


@pytest.mark.parametrize("timer", [(), ("50",)], ids=["plain", "with handlers"])
def test_each_thread_has_its_own_events_in_their_order(programs, timer):
    """Handlers come in between, in events too, and each has one of its own. The ring isn't gone round."""
    steps = LONG // THREADS - 2000
    rows, ticks = walked(programs, LONG, THREADS, steps, *timer)
    for thread in range(THREADS):
        assert [row for row in rows if row.startswith(f"step_{thread}_")] == drawn(thread, steps), thread
    assert rows.count("tick") == ticks and len(rows) == THREADS * steps + ticks and (ticks > 10) == bool(timer)


@pytest.mark.parametrize("few", [0, 1], ids=["plain", "loader"])
@pytest.mark.parametrize("slots", [SHORT, LONG])
def test_a_patched_file_is_checked_and_undone(programs, slots, few):
    """In the loader form, too, which runs as well."""
    name, into, code = bring_meets(programs), ["--into", "few"] if few else [], of_slots(slots)
    words = ["ring", "9", name, "--functions", "--threads"]
    (path,) = changed(code, *words, "--patch-only")[0].split()
    if few:
        words += ["--entries", str(entries_of(path) - few), *into]
        (path,) = changed(code, *words, "--patch-only")[0].split()
    told = f"{path}: {'loader form, written again with the same bytes' if few else 'check yes'}\n"
    assert changed(code, "check", name, *into)[0] == told
    changed(code, *words, "--record", "record", status=WELL)
    assert len(sites_of("record")) == 9
    changed(code, "unpatch", path, "again")
    assert read_bytes("again") == read_bytes(name)


@pytest.mark.parametrize("slots", [SHORT, LONG])
def test_a_changed_byte_of_each_instruction_of_an_event_is_refused(programs, slots):
    name = bring_meets(programs)
    words = ["ring", "9", name, "--symbols", "come", "--threads", "--patch-only"]
    (path,) = changed(of_slots(slots), *words)[0].split()
    stem = path.removesuffix(".patched")
    ((place, _, _),) = Report(f"{stem}.report").trampolines()
    data, length = Report(f"{stem}.report").record_place()
    for at, rule in [*((place + point, 4) for point in POINTS), (data, 5), (data + length - 1, 5)]:
        shutil.copy(path, "changed")
        change("changed", at)
        words = [os.environ["E9TOOL"], "check", name, "changed", f"{stem}.starts", f"{stem}.report"]
        assert run(*words, status=(7,)) == f"check no {at:08x} {rule}\n"


def test_a_dump_of_a_program_that_waits_has_its_last_events(programs):
    """Its threads have ended by themselves, so none is left unfinished."""
    programs.bring("threads", "threads.c", "-pthread")
    (path,) = call("ring", "4", "threads", "--own", "--threads", "--patch-only")[0].split()
    it = subprocess.Popen([f"./{path}", "wait"], stdout=subprocess.PIPE, text=True)
    try:
        assert it.stdout and it.stdout.readline()
        shown, _ = call("dump", str(it.pid), "--record", "dumped")
    finally:
        it.kill()
        it.communicate()
    assert len(sites_of("dumped")) == 4 and Record("dumped").action.name == "ring:4", shown
    assert "process 1, which was running: all 4 events\n" in shown and UNFINISHED not in shown, shown


def test_a_stand_in_records_each_run(programs):
    name = bring_meets(programs)
    call("wrap", "ring", "300", name, "--symbols", "come", "-o", "stand-in")
    for _ in range(2):
        run("./stand-in", status=(WELL,))
    assert [len(sites_of(path)) for path in paths_in(f"{name}.vak/records")] == [300, 300]


def test_of_a_process_that_a_signal_ends_it_is_told_that_an_event_may_be_unfinished(programs):
    """By the summary, by a report, and by the script."""
    programs.bring("threads", "threads.c", "-pthread")
    words = [sys.executable, COMMAND, "ring", "4", "threads", "--own", "--record", "record", "--", "wait"]
    with subprocess.Popen(words, stdout=subprocess.PIPE, stderr=subprocess.PIPE, text=True) as it:
        assert it.stdout and it.stdout.readline()
        it.send_signal(signal.SIGTERM)
        shown = it.communicate()[1]
    assert it.returncode == 128 + signal.SIGTERM and len(sites_of("record")) == 4
    for told in (shown, call("report", "threads", "record")[0], script("show_coverage", "threads", "record")):
        assert "process 1, which ended by SIGTERM: " in told and told.count(UNFINISHED) == 1, told
