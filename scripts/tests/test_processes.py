"""Processes: forks, exec, threads, stops, signals, and a record that outlives the script."""
import os
import shutil
import signal
import subprocess
import time

import pytest

from tests.calls import patch, path_of, record, rows_of, run, script, words_of
from tests.needs import left_out, need
from tests.programs import Programs
from vaknuhol.arguments import Refusal
from vaknuhol.program.program_file import Program

FILES = [path_of("processes", "count", "report"), "record", path_of("processes", "count", "patched")]
SOON, LOOKS = (
    6000,
    20,
)  # tenths of a second, so that a test ends where what it waits for never comes; looks that find a process stopped
THREADS = "warning: the program starts a thread"
LOST = "several threads wrote this record, and what two do at once may be lost: --threads is meant for such a program\n"


@pytest.fixture
def processes(programs: Programs) -> None:
    """The program `processes` in the working folder."""
    programs.bring("processes", "processes.c")


@pytest.fixture
def counted(processes: None) -> None:
    """The same with its function `work` patched."""
    patch("processes", "--symbols", "work", "--count")


@pytest.fixture
def threads(programs: Programs) -> None:
    """The program `threads` in the working folder."""
    programs.bring("threads", "threads.c", "-pthread")


def works():
    """How often `work` was called, by the record of the one function."""
    (row,) = rows_of("record")
    return row.count


def slow_program(**how):
    """The script with the program that goes on until a signal, the pid of the program, and what it prints."""
    it = subprocess.Popen(words_of("run_and_record", *FILES, "slow"), stdout=subprocess.PIPE, **how)
    assert it.stdout
    return it, int(it.stdout.readline())


def state_of(pid):
    """The letter of a process's state."""
    with open(f"/proc/{pid}/stat", encoding="utf-8") as file:
        return file.read().rpartition(")")[2].split()[0]


def is_stopped(pid):
    """Whether each look in a row finds the process stopped: one that goes on sleeps nearly always."""
    return all(state_of(pid) in "tT" and not time.sleep(0.01) for _ in range(LOOKS))


def stands_still(it, pid):
    """Whether a stop reaches the program at last, and it prints nothing from then on."""
    os.set_blocking(it.stdout.fileno(), False)
    reached = any(is_stopped(pid) or time.sleep(0.1) for _ in range(SOON))
    it.stdout.read()
    return reached and is_stopped(pid) and not it.stdout.read()


def comes(it, text):
    """Whether the program prints a text at last, however busy the machine is."""
    os.set_blocking(it.stdout.fileno(), False)
    seen = bytearray()

    def has_come():
        seen.extend(it.stdout.read() or b"")
        return text in seen

    return any(has_come() or time.sleep(0.1) for _ in range(SOON))


def is_gone(pid):
    """Whether a process has ended, even if nobody waited for it."""
    try:
        return state_of(pid) in "ZX"
    except OSError:
        return True


def test_the_work_of_a_daemon_is_counted(counted):
    record("processes", "count", "daemon", status=(3,))
    assert works() == 7, f"the daemon and those before it worked 7 times, not {works()}"


def test_the_work_of_subshells_and_of_programs_after_exec_is_counted(counted):
    record("processes", "count", "shell")
    assert works() == 159, f"the shell-like program and what it starts worked 159 times, not {works()}"
    assert "sum of 4 processes, with 3 execs" in script("show_coverage", "processes", "record")


def test_cover_of_several_processes_is_one(processes):
    patch("processes", "--symbols", "work")
    record("processes", "cover", "shell")
    assert works() == 1


def test_stops_and_signals_reach_the_program_once_each(counted):
    """And the program's status is the script's."""
    it, pid = slow_program()
    os.kill(pid, signal.SIGSTOP)
    assert stands_still(it, pid), "the program goes on after SIGSTOP"
    os.kill(pid, signal.SIGCONT)
    assert comes(it, b"."), "the program stands still after SIGCONT"
    it.send_signal(signal.SIGUSR1)
    assert comes(it, b"signal\n."), "a signal to the script doesn't reach the program"
    it.send_signal(signal.SIGTERM)
    status, told = it.wait(SOON / 10), it.stdout.read()
    assert status == 9 and told.count(b"signal\n") == 1, f"{status} {told}"


def test_stops_of_job_control_reach_the_program(counted):
    it, pid = slow_program(process_group=0)
    os.killpg(it.pid, signal.SIGTSTP)
    _, status = os.waitpid(it.pid, os.WUNTRACED)
    assert os.WIFSTOPPED(status) and stands_still(it, pid), "the job goes on after SIGTSTP"
    os.killpg(it.pid, signal.SIGCONT)
    assert comes(it, b"."), "the job stands still after SIGCONT"
    os.kill(pid, signal.SIGKILL)
    assert it.wait(SOON / 10) == 128 + signal.SIGKILL and works() > 0


def test_sigpipe_reaches_the_program(counted):
    piped = " ".join(words_of("run_and_record", *FILES, "pipe"))
    told = run("bash", "-c", f"{piped} | head -n 1; echo ${{PIPESTATUS[0]}}")
    assert told == "line\n141\n", f"SIGPIPE doesn't reach the program: {told}"


def test_sigkill_to_the_script_leaves_the_record_so_far_and_ends_the_program(counted):
    it, pid = slow_program()
    has_worked = lambda: os.path.exists("record") and works() > 10
    assert any(has_worked() or time.sleep(0.1) for _ in range(SOON)), "the record so far is not written"
    it.kill()
    it.wait()
    assert any(is_gone(pid) or time.sleep(0.1) for _ in range(SOON)), "the program outlives the script"
    assert works() > 10, "the record so far is gone"
    assert "this is the record so far" in script("show_coverage", "processes", "record")


def test_threads_are_warned_of_as_a_program_is_patched_and_as_it_starts_one(threads):
    warned = patch("threads", "--symbols", "main|add")
    assert "warning: threads has the function" in warned and "crash" in warned, warned
    told = record("threads", "cover")
    assert THREADS in told and told.count("warning") == 1 and told.endswith("1998000\n"), told
    assert [row.count for row in rows_of("record")] == [1, 1]


def test_a_record_that_several_threads_wrote_says_so(threads):
    patch("threads", "--symbols", "main", "--count")
    record("threads", "count")
    assert script("show_coverage", "threads", "record").endswith(LOST)


def test_a_program_that_is_patched_for_threads_is_counted_without_a_warning(threads):
    assert "warning" not in patch("threads", "--symbols", "main|add", "--count", "--threads")
    assert record("threads", "threads") == "1998000\n"
    assert sorted(row.count for row in rows_of("record")) == [1, 4]
    assert LOST not in script("show_coverage", "threads", "record")


def test_a_program_without_symbols_is_warned_of_by_its_call_of_clone(threads):
    run("strip", "-o", "stripped", "threads")
    warned = patch("stripped", "--functions", "--within", "401000-402000", status=(0, 1))
    assert "warning: stripped has a call of clone for threads" in warned, warned


def test_a_program_without_threads_is_not_warned_of(processes):
    assert "warning" not in patch("processes", "--symbols", "work")


def test_a_shell_prints_as_it_does():
    """Debian's static busybox, with subshells and a pipe."""
    need("busybox")
    busybox = shutil.which("busybox") or ""
    try:
        Program(busybox)
    except Refusal:
        left_out("busybox is not static (Debian package busybox-static)")
    shutil.copyfile(busybox, "busybox")
    os.chmod("busybox", 0o755)
    patch("busybox", "--functions", "--within", "400000-420000", "--count")
    text = "for i in 1 2 3; do (echo $i; /bin/true); done | while read x; do echo $((x * x)); done; exec echo end"
    words = ["sh", "-c", text]
    assert record("busybox", "count", *words) == run("./busybox", *words)
