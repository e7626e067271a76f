"""Stand-ins: a run is recorded however it ends, and one that can't be recorded is the program's run."""
import contextlib
import os
import resource
import signal
import subprocess
import time

import pytest

from tests.calls import SOURCES
from tests.command import call
from tests.needs import left_out
from tests.programs import Programs
from tests.stand_ins import RECORDS, SOON, comes, lines_of, suite_with_stand_in
from tests.tracing import CONT, LIBC, SEIZE, WAIT_ALL
from vaknuhol.recording.record_file import Record
from vaknuhol.recording.record_folder import paths_in

NOBODY = 65534
MOMENTS, LATE, VICTIMS = 60, 6, ("program", "runner", "runner and program")


@pytest.fixture
def suite(programs: Programs) -> None:
    suite_with_stand_in(programs)


@pytest.fixture
def slow(programs: Programs) -> None:
    """The program `processes`, and a stand-in `slow` that counts its function `work`."""
    programs.bring("processes", "processes.c")
    call("wrap", "count", "processes", "--symbols", "work", "-o", "slow")


def test_an_abort_is_in_the_record(suite) -> None:
    assert subprocess.run(["./stand-in", "crash", "1"], check=False).returncode == -signal.SIGABRT
    with open(f"{SOURCES}/suite.c", encoding="ascii") as file:
        (line,) = [number for number, text in enumerate(file, 1) if "abort();" in text]
    assert lines_of()[line] == 1, "the crash is not in the record"


@pytest.mark.parametrize("who", ["program", "runner", "both"])
def test_sigkill_leaves_whole_records_or_none(slow, who) -> None:
    """Of the program, its runner or both: the status is the program's."""
    it = subprocess.Popen(["./slow", "slow"], stdout=subprocess.PIPE)
    assert it.stdout and int(it.stdout.readline()) == it.pid, "the stand-in is not the program itself"
    it.stdout.read(50)
    runner = tracer_of(it.pid)
    for pid in [it.pid] if who == "program" else [runner] if who == "runner" else [runner, it.pid]:
        os.kill(pid, signal.SIGKILL)
    assert it.wait(SOON) == -signal.SIGKILL, who
    it.stdout.close()
    records = [Record(path) for path in paths_in("processes.vak/records")]
    if who == "program":
        assert records[0].state == "ended" and (records[0].rows[0].count or 0) > 10, who
    assert comes(lambda: not os.path.isdir(f"/proc/{runner}")), "the runner outlives its program"


def test_a_run_that_is_killed_at_any_moment_leaves_nothing_and_no_half_record(slow) -> None:
    """From before the runner traces its program on, and at last once the program works."""
    begun = time.monotonic()
    it = subprocess.Popen(["./slow", "slow"], stdout=subprocess.PIPE)
    assert it.stdout and it.stdout.readline()
    moment = 5 * (time.monotonic() - begun) / MOMENTS
    it.kill(), it.stdout.close(), it.wait()
    call("clean", "processes")
    for number in range(MOMENTS):
        it = subprocess.Popen(["./slow", "slow"], stdout=subprocess.PIPE, stderr=subprocess.DEVNULL)
        assert it.stdout
        if number < MOMENTS - LATE:
            time.sleep(moment * number)
        else:
            it.stdout.readline()
        runner, victims = tracer_of(it.pid), VICTIMS[number % len(VICTIMS)]
        for pid in [runner] * ("runner" in victims and runner > 0) + [it.pid] * ("program" in victims or not runner):
            with contextlib.suppress(ProcessLookupError):
                os.kill(pid, signal.SIGKILL)
        assert it.wait(SOON) == -signal.SIGKILL, f"{victims} after {number} moments"
        it.stdout.close()
    records = [Record(path) for path in paths_in("processes.vak/records")]
    assert len(records) >= LATE // len(VICTIMS), f"{len(records)} records of {MOMENTS} runs"
    assert comes(lambda: not left_over("slow")), f"processes are left: {left_over('slow')}"


def left_over(name: str) -> list[int]:
    """The processes that run a file."""
    path, found = os.path.realpath(name), []
    for pid in filter(str.isdigit, os.listdir("/proc")):
        with contextlib.suppress(OSError):
            found += [int(pid)] * (os.readlink(f"/proc/{pid}/exe") == path)
    return found


def tracer_of(pid: int) -> int:
    with open(f"/proc/{pid}/status", encoding="ascii") as file:
        return next(int(line.split()[1]) for line in file if line.startswith("TracerPid:"))


def test_a_daemon_is_waited_for_by_the_runner_alone(slow) -> None:
    """And its part is in the record at last."""
    assert subprocess.run(["./slow", "daemon"], check=False).returncode == 3
    (path,) = paths_in("processes.vak/records")
    assert comes(lambda: Record(path).state == "ended"), "the record has no end"
    assert (
        Record(path).rows[0].count == 7
    ), f"the daemon and those before it worked {Record(path).rows[0].count} times, and not 7"


def test_a_runner_lets_go_of_a_process_that_runs_on(slow) -> None:
    """And dumps tell what it goes on to record."""
    it, counts, printed = subprocess.Popen(["./slow", "slow"], stdout=subprocess.PIPE), [0], 0
    assert it.stdout
    it.stdout.readline()
    for words in (("--detach",), ()):
        printed += len(it.stdout.read(counts[-1] + 1 - printed))  # a letter each time that it works
        call("dump", str(it.pid), "--record", "dumped.record", *words)
        counts.append(Record("dumped.record").rows[0].count or 0)
        assert comes(lambda: tracer_of(it.pid) == 0), "the runner holds on"
    assert counts[0] < counts[1] < counts[2] and it.poll() is None, counts
    assert (
        "it runs under no vaknuhol-run"
        in call("dump", str(it.pid), "--detach", "--record", "dumped.record", status=2)[1]
    )
    assert paths_in("processes.vak/records"), "what the process recorded before is not kept"
    it.kill()
    it.wait()
    it.stdout.close()


def test_runs_that_cannot_be_traced_end_as_the_program_and_the_first_says_so(suite) -> None:
    told = [
        subprocess.run(["./stand-in", "gcd", "6"], capture_output=True, text=True, preexec_fn=in_debugger, check=False)
        for _ in range(2)
    ]
    assert [it.stdout for it in told] == ["6\n"] * 2 and [it.returncode for it in told] == [0] * 2, told
    assert "nothing is recorded" in told[0].stderr and told[0].stderr.count("\n") == 1 and not told[1].stderr, told
    assert not paths_in(RECORDS)


def test_a_run_whose_record_cannot_be_written_says_so(suite) -> None:
    """And ends as the program does."""
    full = lambda: resource.setrlimit(resource.RLIMIT_FSIZE, (0, 0))
    done = subprocess.run(
        ["./stand-in", "gcd", "6"],
        stdout=subprocess.PIPE,
        stderr=subprocess.PIPE,
        text=True,
        preexec_fn=full,
        check=False,
    )
    assert (done.stdout, done.returncode) == ("6\n", 0) and "can't be written: File too large" in done.stderr, done
    assert os.listdir(RECORDS) == [], os.listdir(RECORDS)


def test_a_folder_of_records_that_may_not_be_written_is_told(suite) -> None:
    """Root may write to each, so another user runs the program."""
    user = None if os.geteuid() else NOBODY
    os.makedirs(RECORDS, exist_ok=True)
    for folder in (".", "suite.vak", RECORDS):
        os.chmod(folder, 0o555 if folder == RECORDS else 0o755)
    done = subprocess.run(["./stand-in", "gcd", "6"], capture_output=True, text=True, user=user, check=False)
    assert (
        (done.stdout, done.returncode) == ("6\n", 0)
        and "nothing is recorded" in done.stderr
        and "Permission denied" in done.stderr
    ), done
    assert not paths_in(RECORDS)
    os.chmod(RECORDS, 0o755)


def test_a_disk_without_room_for_a_record_is_told(suite) -> None:
    """Root alone can mount one."""
    os.makedirs(RECORDS, exist_ok=True)
    mounted = (
        f"mount -t tmpfs -o size=4k none {RECORDS} && head -c 4096 /dev/zero > {RECORDS}/filled "
        f"&& ./stand-in gcd 6; echo $?; ls {RECORDS}"
    )
    if os.geteuid() or subprocess.run(["unshare", "-m", "true"], stderr=subprocess.DEVNULL, check=False).returncode:
        left_out("a full disk: root mounts one")
    done = subprocess.run(["unshare", "-m", "sh", "-c", mounted], capture_output=True, text=True, check=False)
    assert (
        done.stdout == "6\n0\nfilled\n"
        and done.stderr.count("\n") == 1
        and "can't be written: No space left on device" in done.stderr
    ), done


def test_a_program_without_input_output_and_errors_has_a_whole_record(suite) -> None:
    assert subprocess.run(["sh", "-c", "./stand-in gcd 6 <&- >&- 2>&-"], check=False).returncode == 0
    (path,) = paths_in(RECORDS)
    assert Record(path).state == "ended"


def in_debugger() -> None:
    """This process is traced by a child from now on, which lets it go on at each stop."""
    traced, ready, pid = os.getpid(), os.pipe(), os.fork()
    if pid == 0:
        LIBC.ptrace(SEIZE, traced, None, 0)
        os.write(ready[1], b"x")
        os.close(0), os.close(1), os.close(2)
        while True:
            try:
                _, status = os.waitpid(traced, WAIT_ALL)
            except ChildProcessError:
                os._exit(0)
            if not os.WIFSTOPPED(status):
                os._exit(0)
            LIBC.ptrace(CONT, traced, None, 0 if status >> 16 else os.WSTOPSIG(status))
    os.read(ready[0], 1)
