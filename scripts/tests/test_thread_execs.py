"""Another thread than the first replaces the program (exec), or goes on once the first has ended."""
import os
import signal
import subprocess
import sys

import pytest

from tests.calls import run
from tests.command import COMMAND, call
from tests.programs import Programs
from tests.stand_ins import SOON, comes
from vaknuhol.native import program
from vaknuhol.recording.record_file import Record
from vaknuhol.recording.record_folder import paths_in

ROUNDS, EACH, LAST = 8, 100, 7
WAYS = {
    "count": ("count",),
    "ring": ("ring", "64"),
    "cover": ("cover",),
    "count of one thread": ("count", "--no-threads"),
}


@pytest.fixture
def threads(programs: Programs) -> None:
    """The program `thread_execs` in the working folder."""
    programs.bring("thread_execs", "thread_execs.c", "-pthread")


def stand_in(*words: str) -> None:
    call("wrap", *words, "thread_execs", "--symbols", "counted", "-o", "stand-in")


def is_gone(pid: int) -> bool:
    try:
        os.kill(pid, 0)
    except ProcessLookupError:
        return True
    return False


@pytest.mark.parametrize("words", WAYS.values(), ids=WAYS)
def test_a_thread_replaces_the_program_again_and_again(threads, words) -> None:
    """While other threads are busy, and signals come."""
    stand_in(*words)
    done = subprocess.run(["./stand-in", "execs", str(ROUNDS)], capture_output=True, text=True, timeout=SOON, check=False)
    assert (done.stdout, done.returncode) == ("last\n", 11), done
    (path,) = paths_in("thread_execs.vak/records")
    record = Record(path)
    assert (record.state, record.execs) == ("ended", ROUNDS), (record.state, record.execs)
    if words[0] == "count":
        assert [row.count for row in record.rows] == [ROUNDS * EACH + LAST]


def test_a_signal_ends_a_program_that_a_thread_has_replaced(threads) -> None:
    """The runner waits for nothing else meanwhile."""
    stand_in("count")
    with subprocess.Popen(["./stand-in", "execs", "1000000"], stdout=subprocess.DEVNULL) as it:
        assert comes(lambda: any(Record(path).execs > 2 for path in paths_in("thread_execs.vak/records")))
        it.terminate()
        assert it.wait(SOON) == -signal.SIGTERM
    (path,) = paths_in("thread_execs.vak/records")
    assert Record(path).state == "ended"


def test_signals_reach_a_program_whose_first_thread_has_ended(threads) -> None:
    """Those that are sent to its runner, too."""
    words = ["count", "thread_execs", "--symbols", "counted", "--record", "record"]
    call(*words, "--patch-only")
    with subprocess.Popen([sys.executable, COMMAND, *words], stdout=subprocess.PIPE) as it:
        assert it.stdout
        pid = int(it.stdout.readline())
        it.terminate()
        assert it.wait(SOON) == 128 + signal.SIGTERM
    assert comes(lambda: is_gone(pid)) and Record("record").state == "ended"


def test_a_runner_answers_where_the_first_thread_has_ended(threads) -> None:
    """It holds no such thread, and goes on."""
    stand_in("count")
    with subprocess.Popen(["./stand-in"], stdout=subprocess.PIPE) as it:
        assert it.stdout
        it.stdout.readline()
        told = run(program("vaknuhol-run"), "--detach", str(it.pid), status=(125,))
        assert "its first thread has ended" in told, told
        it.terminate()
        assert it.wait(SOON) == -signal.SIGTERM
