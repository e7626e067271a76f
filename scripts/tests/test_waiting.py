"""Runs that are stopped and continued, that leave processes behind, that are asked to end, or that limits hinder."""
import os
import pty
import resource
import signal
import subprocess
import sys
import time
from concurrent.futures import ThreadPoolExecutor

import pytest

from tests.calls import match, run
from tests.command import COMMAND, call
from tests.programs import Programs
from tests.stand_ins import SOON
from vaknuhol.native import program
from vaknuhol.recording.record_file import Record
from vaknuhol.recording.record_folder import paths_in

STOPS, LONGEST = 12, 3  # how many, of up to so many seconds
RUN = [sys.executable, COMMAND, "count", "waiting", "--symbols", "counted"]
LEFT = "the program has ended, and process"


@pytest.fixture
def waiting(programs: Programs) -> None:
    """The program `waiting` in the working folder, and its stand-in; both have run files by now."""
    programs.bring("waiting", "waiting.c")
    programs.patch("waiting", "count", "PROGRAM", "--symbols", "counted")
    call("wrap", "count", "waiting", "--symbols", "counted", "-o", "stand-in", "--quiet")


def stopped(words: list[str], number: signal.Signals, seconds: float) -> tuple[str, str, int]:
    """What a job prints, and its status, that is stopped for so long, and continued."""
    with subprocess.Popen(words, stdout=subprocess.PIPE, stderr=subprocess.PIPE, text=True, process_group=0) as it:
        assert it.stdout and it.stdout.readline() == "begins\n"
        os.killpg(it.pid, number)
        time.sleep(seconds)
        os.killpg(it.pid, signal.SIGCONT)
        told, errors = it.communicate(timeout=SOON)
    return told, errors, it.returncode


def test_a_job_goes_on_after_a_stop_however_long(waiting) -> None:
    """By the command, each with a record of its own, and by stand-ins."""
    runs = [
        (["./stand-in"] if number % 2 else [*RUN, "--quiet", "--record", f"{number}.record", "--"],
         (signal.SIGSTOP, signal.SIGTSTP)[number // 2 % 2], LONGEST * (number + 1) / STOPS)
        for number in range(STOPS)
    ]
    with ThreadPoolExecutor(STOPS) as workers:
        ends = list(workers.map(lambda run: stopped([*run[0], "long"], *run[1:]), runs))
    assert set(ends) == {("ends\n", "", 6)}, ends


def test_a_job_goes_on_after_ctrl_z_at_a_terminal(waiting) -> None:
    """Of a shell with job control, which brings it back after more than a second."""
    pid, terminal = pty.fork()
    if pid == 0:
        os.execvp("bash", ["bash", "--norc", "--noprofile", "-i"])
    seen = bytearray()

    def shows(text: bytes) -> bool:
        """Whether it shows a text behind what was seen before."""
        begin = len(seen)

        def has_come() -> bool:
            seen.extend(os.read(terminal, 4096))
            return text in seen[begin:]

        return any(has_come() for _ in range(SOON))

    os.write(terminal, f"stty -echo; PS1=; {' '.join(RUN)} --quiet -- long\n".encode())
    assert shows(b"begins\r\n"), seen
    os.write(terminal, b"\x1a")
    assert shows(b"Stopped"), seen
    time.sleep(2)
    os.write(terminal, b"fg\n")
    assert shows(b"ends\r\n"), seen
    os.write(terminal, b"echo status=$?\n")
    assert shows(b"status=6\r\n"), seen
    os.write(terminal, b"exit\n")
    os.waitpid(pid, 0)
    os.close(terminal)


def test_what_a_program_leaves_behind_is_told_of_and_ends_with_a_summary(waiting) -> None:
    """As `timeout` ends it, by a signal to the process and to its group; more than once, since that was a matter of
    moments."""
    for _ in range(6):
        with subprocess.Popen([*RUN, "--", "daemon"], stderr=subprocess.PIPE, text=True, process_group=0) as it:
            assert it.stderr
            told = it.stderr.readline()
            assert LEFT in told and match(r"kill ([0-9]+) ends it", told), told
            it.terminate(), os.killpg(it.pid, signal.SIGTERM), os.killpg(it.pid, signal.SIGCONT)
            _, shown = it.communicate(timeout=SOON)
        assert it.returncode == 0 and "was executed (100.0 %)" in shown, shown
        record = Record("waiting.vak/last.record")
        assert record.state == "ended" and record.processes == 2 and (record.rows[0].count or 0) > 1


def test_a_signal_to_the_runner_of_a_stand_in_is_for_its_program(waiting) -> None:
    with subprocess.Popen(["./stand-in", "endless"], stdout=subprocess.PIPE, text=True) as it:
        assert it.stdout and it.stdout.readline() == "begins\n"
        refused = call("dump", str(tracer_of(it.pid)), status=2)[1]
        assert f"follows {it.pid}: dump {it.pid}" in refused, refused
        os.kill(tracer_of(it.pid), signal.SIGTERM)
        assert it.wait(SOON) == -signal.SIGTERM
    (path,) = paths_in("waiting.vak/records")
    assert Record(path).state == "ended"


def test_a_dump_of_the_command_names_the_process_of_the_program(waiting) -> None:
    with subprocess.Popen([*RUN, "--", "endless"], stdout=subprocess.PIPE, stderr=subprocess.DEVNULL, text=True) as it:
        assert it.stdout and it.stdout.readline() == "begins\n"
        pid = match(r"follows ([0-9]+): dump \1", call("dump", str(it.pid), status=2)[1]).group(1)
        assert "wrote" in call("dump", pid)[0]
        it.terminate()
        assert it.wait(SOON) == 128 + signal.SIGTERM


def tracer_of(pid: int) -> int:
    with open(f"/proc/{pid}/status", encoding="ascii") as file:
        return next(int(line.split()[1]) for line in file if line.startswith("TracerPid:"))


def limited(which: int, soft: int, hard: int, *words: str) -> "subprocess.CompletedProcess[str]":
    return subprocess.run(words, capture_output=True, text=True, timeout=SOON, check=False,
                          preexec_fn=lambda: resource.setrlimit(which, (soft, hard)))


def test_a_limit_on_memory_is_not_for_the_record_or_is_told(waiting) -> None:
    """A run file of which the runner could read the mark in neither case: it is longer than a limit on memory lets it
    be, where that may not be raised."""
    with open("long.run", "wb") as file:
        file.truncate(1 << 30)
    words = (program("vaknuhol-run"), "vaknuhol", "long.run", "record", "waiting", "waiting")
    told = [limited(resource.RLIMIT_AS, 1 << 26, hard, *words) for hard in (1 << 26, resource.RLIM_INFINITY)]
    assert [it.returncode for it in told] == [125, 125] and [it.stderr.count("\n") for it in told] == [1, 1], told
    assert "long.run can't be read into memory, on which there may be a limit (ulimit -v)" in told[0].stderr, told
    assert "it is no run file of this version" in told[1].stderr, told


def test_a_file_that_is_too_long_is_named(waiting) -> None:
    """The file of a kept choice, or of a new one."""
    for words in (["--symbols", "counted"], ["--symbols", "main"]):
        command = [sys.executable, COMMAND, "count", "waiting", *words, "--", "short"]
        done = limited(resource.RLIMIT_FSIZE, 0, 0, *command)
        assert done.returncode == 125 and "waiting.vak" in done.stderr and "a file:" not in done.stderr, done


def test_a_quiet_wrap_says_nothing(waiting) -> None:
    assert call("wrap", "cover", "waiting", "--symbols", "counted", "-o", "other", "--quiet") == ("", "")
    assert os.access("other", os.X_OK)


@pytest.mark.parametrize("what, rounds, shown", [("order", "1000", "0 behind, 0 stuck"), ("forks", "4000", "0 stuck")])
def test_a_continuation_ends_a_stop(programs: Programs, what, rounds, shown) -> None:
    """No stop is reported behind it, and none comes again, as none does of the original: of a child that runs, and of
    one that is being given memory for its record."""
    programs.bring("stops", "stops.c")
    assert run("./stops", what, rounds, status=(6,)) == f"{shown}\n"
    assert call("count", "stops", "--symbols", "counted", "--quiet", "--", what, rounds, status=6) == (f"{shown}\n", "")
