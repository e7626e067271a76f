"""Conditions in a program with threads: an execution that meets one is recorded, whichever thread makes it, and no
other, and no thread loses a register or a flag."""
import pytest

from tests.calls import match, patch, path_of, run
from tests.command import call, known
from tests.programs import Programs
from vaknuhol.program.kernel import entries_of
from vaknuhol.program.program_file import read_bytes
from vaknuhol.recording.record_file import Record
from vaknuhol.recording.record_folder import paths_in

TIMES, WELL = 3000, 7
MET = {
    "rdi == 2": TIMES,
    "rdi != 2": 3 * TIMES,
    "rax < 10": 4 * 10,
    "rdi >= 1 and rsi < 100": 3 * 100,
    "rax > 9 and rdi <= 2 and rsi < 1000": 3 * 990,
    "rax >= 0 and rax > 2147483647": 0,
}
ONE = "rdi >= 1 and rax < 100"
LAST = "meets.vak/last.record"
PATCHED_FOR = "so it is patched for threads (--no-threads leaves that)\n"


@pytest.fixture
def come(programs: Programs) -> int:
    """The program `meets` in the working folder; the address of its block `come`."""
    programs.bring("meets", "meets.c", "-pthread", f"-DTIMES={TIMES}")
    return int(match("(?m)^([0-9a-f]+) T come$", run("nm", "meets"))[1], 16)


@pytest.mark.parametrize("condition, times", MET.items(), ids=MET)
def test_executions_are_counted_as_often_as_the_source_says(come, condition, times):
    """The blocks before and behind are patched, too, and without a word they are for threads."""
    near = f"{come:x}-{come + 0x100:x}"
    _, shown = call("count", "meets", "--blocks", "--within", near, "--when", condition, status=WELL)
    record = Record(LAST)
    assert shown.count(PATCHED_FOR) == 1 and "warning" not in shown and f"count when {condition}\n" in shown, shown
    assert record.for_threads and (record.action.name, known(LAST)[come]) == (f"count when {condition}", times)


def test_all_blocks_are_patched_and_no_thread_loses_a_register(come):
    call("count", "meets", "--blocks", "--when", ONE, status=WELL)
    assert known(LAST)[come] == 300


@pytest.mark.parametrize("condition, times", MET.items(), ids=MET)
def test_a_block_is_covered_where_an_execution_meets_the_condition(come, condition, times):
    call("cover", "meets", "--symbols", "come", "--threads", "--when", condition, status=WELL)
    assert known(LAST) == {come: int(times > 0)} and Record(LAST).for_threads


def test_records_of_conditions_are_added_up(come):
    call("count", "meets", "--symbols", "come", "--threads", "--when", ONE, "--record", "one", status=WELL)
    call("merge", "two", "one", "one")
    assert known("two") == {come: 2 * 300} and Record("two").for_threads
    assert f"{2 * 300}  come" in call("report", "meets", "two")[0]


@pytest.mark.parametrize("base", ["count", "cover"])
@pytest.mark.parametrize("few", [0, 1], ids=["plain", "loader"])
def test_a_patched_file_is_checked_and_undone(come, base, few):
    """In the loader form, too."""
    words = [base, "meets", "--functions", "--threads", "--when", ONE, "--patch-only"]
    (path,) = call(*words)[0].split()
    if few:
        (path,) = call(*words, "--entries", str(entries_of(path) - few), "--into", "few")[0].split()
    told = f"{path}: {'loader form, written again with the same bytes' if few else 'check yes'}\n"
    assert call("check", "meets", *(["--into", "few"] if few else []))[0] == told
    call("unpatch", path, "again")
    assert read_bytes("again") == read_bytes("meets")


def test_a_stand_in_records_each_run(come):
    call("wrap", "count", "meets", "--symbols", "come", "--when", ONE, "-o", "stand-in")
    for _ in range(2):
        run("./stand-in", status=(WELL,))
    paths = paths_in("meets.vak/records")
    assert [known(path) for path in paths] == 2 * [{come: 300}] and all(Record(path).for_threads for path in paths)


@pytest.mark.parametrize("base", ["count", "cover"])
def test_the_script_patches_as_the_command_does(come, base):
    """To files that have the condition in their names."""
    patch("meets", "--symbols", "come", "--threads", "--when", ONE, *(["--count"] if base == "count" else []))
    (path,) = call(base, "meets", "--symbols", "come", "--threads", "--when", ONE, "--patch-only")[0].split()
    assert read_bytes(path_of("meets", f"threads-{base}-when", "patched")) == read_bytes(path)
