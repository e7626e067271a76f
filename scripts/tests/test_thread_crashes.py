"""Rings that threads share, of a process in which one of them crashes: the last row is the block in which that stood,
whatever the others do until the kernel has ended them, and until the runner sees the crash."""
import bisect
import functools
import os
import signal
import struct
import subprocess
import sys
from collections.abc import Callable

import pytest

from tests.calls import HELD_BY_FILTERS, of_slots, run
from tests.command import call, changed
from tests.needs import left_out
from tests.programs import Programs, inside
from tests.stand_ins import comes
from vaknuhol.program.program_file import read_bytes
from vaknuhol.recording.record_file import History, Record
from vaknuhol.recording.record_folder import paths_in

pytestmark = pytest.mark.xdist_group("thread crashes")
ASKED, RUNS, SHORT, LONG = 20, 10, 256, 65536
OWN, ALL = "--blocks --own", "--blocks"  # of the program's own files; of the C library, too
FUNCTIONS, FEW = "--functions", "--symbols work|share|fetch|total"  # the first block of each


class Crashing:
    """The program `crashing` in a folder, with a stand-in that keeps the last 20 events of a choice of blocks, in a
    ring of so many slots."""

    def __init__(self, programs: Programs, folder: str, choice: str, slots: int) -> None:
        os.makedirs(folder)
        self.folder, self.records = folder, f"{folder}/crashing.vak/records"
        with inside(folder):
            programs.bring("crashing", "crashing.c", "-pthread")
            changed(of_slots(slots), "wrap", "ring", str(ASKED), "crashing", *choice.split(), "-o", "stand-in")
            lines = (line.split() for line in run("nm", "--defined-only", "crashing").splitlines())
        self.symbols = sorted((int(at, 16), name) for at, kind, name in lines if kind in "tT")

    def start(self, *how: str, first: str = "") -> subprocess.Popen[str]:
        """The stand-in, as the first that leaves a record. What is done before is Python."""
        for path in paths_in(self.records):
            os.remove(path)
        begin = f"import os, sys\n{first}\nos.execv(sys.argv[1], sys.argv[1:])"
        words = [sys.executable, "-c", begin, f"{self.folder}/stand-in", *how]
        return subprocess.Popen(words, stdout=subprocess.PIPE, text=True)

    def record(self) -> Record:
        (path,) = paths_in(self.records)
        return Record(path)

    def run(self, *how: str, first: str = "") -> Record:
        with self.start(*how, first=first):
            pass
        return self.record()

    def functions(self, history: History) -> list[str]:
        """To which functions the blocks belong that are the rows of a process."""
        assert None not in history.rows and len(history.rows) <= ASKED
        return [self.symbols[bisect.bisect(self.symbols, (row.first, "~")) - 1][1] for row in history.rows if row]

    def crashed(self, number: int, *how: str, first: str = "") -> list[str]:
        """The functions of the last rows of the process, which a signal ended."""
        history = self.run(*how, first=first).histories[-1]
        assert history.ended == f"signal {number}"
        return self.functions(history)


Patched = Callable[..., Crashing]


@pytest.fixture(scope="module")
def patched(programs: Programs, module_place: str) -> Patched:
    """Patches the program by a choice, once."""

    @functools.cache
    def made(choice: str, slots: int) -> Crashing:
        return Crashing(programs, f"{module_place}/{slots}{choice.replace(' ', '')}", choice, slots)

    return lambda choice=OWN, slots=LONG: made(choice, slots)


def check_last(crashing: Crashing, how: str, number: int, function: str) -> None:
    """Each time the last row is of a function."""
    for _ in range(RUNS):
        names = crashing.crashed(number, how)
        assert function in names[-1], names


@pytest.mark.parametrize("how, function", [("null", "fetch"), ("far", "fetch"), ("deep", "deepen"), ("loop", "total")])
def test_the_last_row_is_the_block_in_which_a_thread_crashes(patched, how, function):
    """Also where the kernel tells no address, and where the stack is full."""
    check_last(patched(), how, signal.SIGSEGV, function)


@pytest.mark.parametrize("how", ["divide", "caught"])
def test_so_it_is_in_a_function_to_which_the_others_come_too(patched, how):
    """And where a handler has caught another fault, after which the program went on."""
    check_last(patched(), how, signal.SIGFPE, "share")


def need_way(crashing: Crashing, way: str) -> None:
    """That the program may begin again in this way."""
    if subprocess.run([f"{crashing.folder}/crashing", way, "null"], check=False).returncode != -signal.SIGSEGV:
        left_out(f"no process may be {way} here")


ELSEWHERE = {
    "abort": (signal.SIGABRT, "give_up"),
    "raise": (signal.SIGSYS, "refuse"),
    "library": (signal.SIGSEGV, "measure"),
    "leap": (signal.SIGSEGV, "leap"),
}


@pytest.mark.parametrize("how", ELSEWHERE)
def test_outside_of_what_is_patched_the_last_row_is_the_block_that_led_there(patched, how):
    check_last(patched(), how, *ELSEWHERE[how])


@pytest.mark.parametrize("choice", [FUNCTIONS, FEW])
def test_where_the_block_is_not_patched_the_last_row_is_of_its_function(patched, choice):
    check_last(patched(choice), "loop", signal.SIGSEGV, "total")


@pytest.mark.parametrize("choice", [ALL, FUNCTIONS])
@pytest.mark.parametrize("how", ["abort", "raise"])
def test_a_signal_that_a_thread_sends_itself_is_a_crash(patched, how, choice):
    """The thread stands behind a call of the kernel, in a library that is patched."""
    check_last(patched(choice), how, ELSEWHERE[how][0], "pthread_kill")


@pytest.mark.parametrize("way", ["filtered", "apart"])
@pytest.mark.parametrize(
    "how, number, function", [("null", signal.SIGSEGV, "fetch"), ("divide", signal.SIGFPE, "share")]
)
def test_so_it_is_where_the_memory_is_not_shared(patched, how, number, function, way):
    """As of a process with a filter on system calls that the runner hasn't and may not suspend, and of one with another
    namespace of segments."""
    need_way(patched(), way)
    names = patched().crashed(number, way, how, first=HELD_BY_FILTERS * (way == "filtered"))
    assert names[-1] == function, names


@pytest.mark.parametrize("ways", [(), ("apart",)])
@pytest.mark.parametrize("slots", [SHORT, LONG])
@pytest.mark.parametrize("left", [None, ASKED, ASKED - 1, 1, 0, -LONG])
def test_what_others_do_after_a_crash_is_not_shown(patched, left, slots, ways):
    """What they have overwritten by then is gone, but for a few events up to the crash that are left, or none; in which
    block the thread stands the runner sees."""
    events, kept = (0, ASKED) if left is None else (slots - left, max(1, left))
    for way in ways:
        need_way(patched(FEW, slots), way)
    names = patched(FEW, slots).crashed(signal.SIGSEGV, *ways, "late", str(events))
    assert names == ["work"] * (kept - 1) + ["fetch"], names


def test_of_two_crashes_the_one_that_ends_the_process_is_told(patched):
    crashing = patched(FEW)
    (history,) = crashing.run("both", "1000").histories
    names = crashing.functions(history)
    assert names[-1] == {"signal 11": "fetch", "signal 8": "share"}[history.ended], names


def test_a_process_that_exits_has_its_last_events(patched):
    (history,) = patched().run("exit").histories
    assert history.ended == "exit 3" and len(history.rows) == ASKED


@pytest.mark.parametrize("number", [signal.SIGTERM, signal.SIGQUIT, signal.SIGABRT], ids=str)
def test_a_signal_from_outside_is_no_crash_of_a_thread(patched, number):
    """All rows are there."""
    crashing = patched()
    with crashing.start("waits") as it:
        assert it.stdout and it.stdout.readline() == "works\n"
        it.send_signal(number)
    (history,) = crashing.record().histories
    assert history.ended == f"signal {number}" and len(history.rows) == ASKED


def slow_down(program: int) -> None:
    """The runner gets a processor when the threads of its program leave it one, which they have, too."""
    with open(f"/proc/{program}/status", encoding="ascii") as file:
        (runner,) = (int(line.split()[1]) for line in file if line.startswith("TracerPid:"))
    for tid in (*map(int, os.listdir(f"/proc/{program}/task")), runner):
        os.sched_setaffinity(tid, {min(os.sched_getaffinity(0))})
    os.sched_setscheduler(runner, os.SCHED_IDLE, os.sched_param(0))


def test_so_it_is_where_the_threads_go_round_the_ring_while_the_runner_copies_it(patched):
    """By many calls, as the memory isn't shared, between which it waits for a processor."""
    crashing = patched()
    need_way(crashing, "apart")
    for _ in range(RUNS):
        with crashing.start("apart", "waits") as it:
            assert it.stdout and it.stdout.readline() == "works\n"
            slow_down(it.pid)
            it.send_signal(signal.SIGQUIT)
        history = crashing.record().histories[-1]
        assert history.ended == f"signal {signal.SIGQUIT}" and len(history.rows) == ASKED


def test_a_child_that_crashes_has_its_crash_in_the_record_while_its_parent_runs_on(patched):
    crashing = patched()
    with crashing.start("forked", "null", "stays") as it:
        assert comes(lambda: bool(paths_in(crashing.records)) and crashing.record().histories[0].is_crash())
        child, first = crashing.record().histories
        assert (child.ended, first.ended) == ("signal 11", "running")
        assert crashing.functions(child)[-1] == "fetch"
        it.send_signal(signal.SIGTERM)
    child, first = crashing.record().histories
    assert (child.ended, first.ended) == ("signal 11", "signal 15") and crashing.functions(child)[-1] == "fetch"


def test_of_a_program_without_sections_a_crash_outside_of_what_is_patched_is_not_found(programs):
    """Then all rows are there. One in its block is found."""
    programs.bring("crashing", "crashing.c", "-pthread")
    lines = (line.split() for line in run("nm", "--defined-only", "crashing").splitlines())
    at = {name: int(place, 16) for place, _, name in lines}
    data = bytearray(read_bytes("crashing"))
    struct.pack_into("<Q", data, 40, 0)
    struct.pack_into("<HHH", data, 58, 0, 0, 0)
    with open("crashing", "wb") as file:
        file.write(data)
    words = ["ring", str(ASKED), "crashing", "--blocks", "--within", f"{at['work']:x}-{at['main']:x}", "--threads"]
    for how, number in (("null", signal.SIGSEGV), ("abort", signal.SIGABRT)):
        call(*words, "--record", "record", "--", how, status=128 + number)
        (history,) = Record("record").histories
        rows = [row.first for row in history.rows if row]
        assert len(rows) == ASKED or how == "null" and rows == [at["fetch"]]
        assert (rows[-1] == at["fetch"]) == (how == "null")


def test_the_command_shows_the_crash_last(programs):
    programs.bring("crashing", "crashing.c", "-pthread")
    words = ["ring", str(ASKED), "crashing", *OWN.split(), "--record", "record", "--", "abort"]
    _, told = call(*words, status=128 + signal.SIGABRT)
    for shown in (told, call("report", "crashing", "record")[0]):
        last = shown.partition("which ended by SIGABRT: ")[2].partition("\nit is of ")[0].splitlines()[-1]
        assert last.startswith("    give_up  crashing.c:"), shown
