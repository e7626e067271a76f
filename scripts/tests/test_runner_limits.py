"""The runner itself: what it refuses, limits on files, records so far, signals that it is sent; and stand-ins of a small
program, whose runners are apart from it."""
import contextlib
import os
import resource
import shutil
import signal
import struct
import subprocess
from collections.abc import Iterator

import pytest

from tests.command import call
from tests.programs import Programs, inside
from tests.stand_ins import SOON, comes
from vaknuhol.commands import wrap
from vaknuhol.native import program
from vaknuhol.recording.patch_files import Run
from vaknuhol.recording.patch_report import Report
from vaknuhol.recording.record_file import Record
from vaknuhol.recording.record_folder import paths_in
from vaknuhol.recording.run_file import table_of
from vaknuhol.recording.runner import PASSED_ON

RAN, REFUSED, EVENTS = 3, 125, 12  # the program's status; the runner's; how often it adds, without input
RECORDS, MANY = "tiny.vak/records", 8000
UNLIMITED = resource.RLIM_INFINITY


@pytest.fixture(scope="module")
def made(programs: Programs, module_place: str) -> tuple[str, str]:
    """A folder with the program `tiny`, patched to count its function `add`, and the path of the patched file."""
    with inside(module_place):
        programs.bring("tiny", "tiny.c", "-nostdlib")
        (patched,) = call("count", "tiny", "--symbols", "add", "--patch-only")[0].split()
        call("count", "tiny", "--symbols", "add", "--quiet", status=RAN)
    return module_place, patched


@pytest.fixture
def words(made: tuple[str, str], place: str) -> list[str]:
    """The words that call the runner in the working folder."""
    shutil.copytree(made[0], ".", dirs_exist_ok=True)
    stem = made[1].removesuffix(".patched")
    return [program("vaknuhol-run"), "vaknuhol", f"{stem}.count.run", f"{place}/out/a.record", made[1], "tiny"]


@pytest.fixture(autouse=True)
def folder_of_record(place: str) -> None:
    os.mkdir("out")


def ran(words: list[str], limit: tuple[int, int] | None = None) -> tuple[int, str]:
    """The status of a run, and what is told as errors."""

    def prepare():
        if limit:
            resource.setrlimit(resource.RLIMIT_FSIZE, limit)

    done = subprocess.run(
        words, stdin=subprocess.DEVNULL, stderr=subprocess.PIPE, text=True, preexec_fn=prepare, check=False
    )
    return done.returncode, done.stderr


def count_in(path: str = "out/a.record") -> int:
    (row,) = Record(path).rows
    return row.count or 0


def test_a_run_leaves_its_record_alone_in_the_folder(words):
    assert ran(words) == (RAN, "") and count_in() == EVENTS and os.listdir("out") == ["a.record"]


@pytest.mark.parametrize("change", [lambda it: it + b"x", lambda it: it[:-1], lambda it: it[:100], lambda it: b"",
                                    lambda it: b"vakrun 5" + it[8:]],
                         ids=["longer", "shorter", "cut off", "empty", "of another version"])  # fmt: skip
def test_a_run_file_of_another_length_or_version_is_refused(words, change):
    with open(words[2], "rb") as file:
        whole = file.read()
    with open(words[2], "wb") as file:
        file.write(change(whole))
    told = f"vaknuhol: {words[2]}: it is no run file of this version: patch again\n"
    assert ran(words) == (REFUSED, told) and os.listdir("out") == []


def test_a_program_that_cannot_be_started_leaves_nothing(words):
    """Nor does one that is gone, and a folder that is."""
    with open("text", "w", encoding="ascii") as file:
        file.write("no program\n")
    os.chmod("text", 0o755)
    told = "text can't be started: is it a whole program, and may it be executed?"
    assert ran([*words[:4], "text", "tiny"]) == (REFUSED, f"vaknuhol: {told}\n") and os.listdir("out") == []
    assert ran([*words[:4], "gone", "tiny"]) == (REFUSED, "vaknuhol: gone: No such file or directory\n")
    assert os.listdir("out") == []
    status, errors = ran([*words[:3], "gone/a.record", *words[4:]])
    assert (status, errors) == (REFUSED, "vaknuhol: gone/a.record can't be written: No such file or directory\n")


def test_a_record_that_no_file_may_hold_is_told_and_the_program_ends_as_it_does(words):
    """By a hard limit of files; the record before stays."""
    with open("out/a.record", "w", encoding="ascii") as file:
        file.write("before\n")
    told = f"vaknuhol: {words[3]} can't be written: File too large\n"
    assert ran(words, (0, 0)) == (RAN, told)
    with open("out/a.record", encoding="ascii") as file:
        assert file.read() == "before\n"
    assert os.listdir("out") == ["a.record"]


@pytest.mark.parametrize("limit", [1000, 140_000, 200_000])
def test_a_long_record_that_is_written_in_part_is_none(words, made, limit):
    """However much of it could be written: the runner has room for 128 KB before it writes."""
    report = Report(f"{made[1].removesuffix('.patched')}.report")
    run = Run(report)
    run.blocks += [(0x500000 + at, 0x500001 + at, 0x500000 + at) for at in range(MANY)]
    with open("long.run", "wb") as file:
        file.write(table_of(report, run, made[1]))
    long = [*words[:2], "long.run", *words[3:]]
    assert ran(long) == (RAN, "") and os.path.getsize("out/a.record") > 220_000
    assert [row.count for row in Record("out/a.record").rows] == [EVENTS, *[None] * MANY]
    os.remove("out/a.record")
    told = f"vaknuhol: {words[3]} can't be written: File too large\n"
    assert ran(long, (limit, limit)) == (RAN, told) and os.listdir("out") == []


def is_reading(pid: str) -> bool:
    """Whether a process has come to its read of standard input."""
    with open(f"/proc/{pid}/syscall", encoding="ascii") as file:
        return file.read().startswith("0 0x0 ")


@contextlib.contextmanager
def waiting(words: list[str]) -> Iterator[tuple[subprocess.Popen[bytes], int]]:
    """A run whose program waits for input, and the program's number."""
    with subprocess.Popen(words, stdin=subprocess.PIPE, stderr=subprocess.DEVNULL) as it:
        children = f"/proc/{it.pid}/task/{it.pid}/children"

        def is_there() -> bool:
            with open(children, encoding="ascii") as file:
                pids = file.read().split()
            return bool(pids) and os.readlink(f"/proc/{pids[0]}/exe").endswith(".patched") and is_reading(pids[0])

        assert comes(is_there)
        with open(children, encoding="ascii") as file:
            yield it, int(file.read().split()[0])
        it.kill()


def test_the_record_so_far_is_written_again_and_again(words):
    """And the last time where the program has ended."""
    with waiting(words) as (it, _):
        assert it.stdin
        for number in range(1, 4):
            wanted = EVENTS + number
            it.stdin.write(b"x")
            it.stdin.flush()
            assert comes(lambda: os.path.exists("out/a.record") and count_in() == wanted), "it is written once only"
            assert Record("out/a.record").state == "running"
        it.stdin.close()
        assert it.wait(SOON) == RAN and Record("out/a.record").state == "ended"


@pytest.mark.parametrize("number", PASSED_ON, ids=lambda it: it.name)
def test_a_signal_that_the_runner_is_sent_is_for_the_program(words, number):
    """Which ends by it; the record is whole."""
    with waiting(words) as (it, pid):
        os.kill(it.pid, number)
        assert it.wait(SOON) == 128 + number and not os.path.isdir(f"/proc/{pid}")
    assert Record("out/a.record").state == "ended" and count_in() == EVENTS


def test_a_program_that_dumps_a_core_is_ended_by_its_signal_alone(programs: Programs):
    """In the record of a ring, too, which tells the signal's number without that of the core."""
    if resource.getrlimit(resource.RLIMIT_CORE)[1] == 0:
        pytest.skip("no core may be written here")
    programs.bring("suite", "suite.c", "-O0")
    call("wrap", "ring", "9", "suite", "--own", "--blocks", "--no-threads", "-o", "stand-in")
    limit = resource.getrlimit(resource.RLIMIT_CORE)[1]
    prepare = lambda: resource.setrlimit(resource.RLIMIT_CORE, (limit, limit))
    done = subprocess.run(["./stand-in", "crash", "1"], preexec_fn=prepare, stderr=subprocess.DEVNULL, check=False)
    (path,) = paths_in("suite.vak/records")
    (history,) = Record(path).histories
    assert done.returncode == -signal.SIGABRT and history.ended == f"signal {int(signal.SIGABRT)}"


def test_a_stand_in_keeps_the_newest_records_as_many_as_it_is_told(words):
    for keep in (1, 3):
        call("wrap", "count", "tiny", "--symbols", "add", "--keep", str(keep), "--records", f"kept{keep}", "-o", "si")
        seen: list[str] = []
        for number in range(keep + 3):
            assert subprocess.run(["./si"], stdin=subprocess.DEVNULL, check=False).returncode == RAN
            seen += sorted(set(paths_in(f"kept{keep}")) - set(seen))
            assert paths_in(f"kept{keep}") == seen[-keep:] and len(seen) == number + 1


@pytest.mark.parametrize("keep", [0, 1, 5, 2**32 - 1])
def test_a_stand_in_holds_the_names_and_how_many_records_it_keeps(monkeypatch, place, keep):
    runner = b"before" + wrap.EMPTY + b"after"
    monkeypatch.setattr(wrap, "program", lambda name: name)
    monkeypatch.setattr(wrap, "read_bytes", lambda path: runner)
    made = wrap.stand_in("a", "b", "c", keep)
    texts = [made[6 + 16 + at * 4096 :][:4096].rstrip(b"\0").decode() for at in range(3)]
    assert texts == [f"{place}/{name}" for name in "abc"] and made.startswith(b"beforevakstandin 2\0\0\0\0")
    assert made[6 + 16 + 3 * 4096 :] == struct.pack("<I", keep) + b"after" and len(made) == len(runner)


@pytest.fixture
def stand_in(words: list[str]) -> Iterator[tuple[subprocess.Popen[bytes], int]]:
    """A stand-in whose program waits for input, and the number of its runner."""
    call("wrap", "count", "tiny", "--symbols", "add", "-o", "si")
    soft = lambda: resource.setrlimit(resource.RLIMIT_FSIZE, (0, UNLIMITED))
    with subprocess.Popen(["./si"], stdin=subprocess.PIPE, stdout=subprocess.PIPE, preexec_fn=soft) as it:

        def tracer() -> int:
            with open(f"/proc/{it.pid}/status", encoding="ascii") as file:
                return next(int(line.split()[1]) for line in file if line.startswith("TracerPid:"))

        assert comes(lambda: tracer() != 0 and os.readlink(f"/proc/{it.pid}/exe").endswith(".patched"))
        yield it, tracer()
        it.kill()


def test_the_runner_of_a_stand_in_is_in_a_session_of_its_own(stand_in):
    """So that what a terminal sends doesn't reach it, and its folder is none that is in use."""
    it, runner = stand_in
    assert os.getsid(runner) != os.getsid(it.pid) and os.getpgid(runner) != os.getpgid(it.pid)
    assert os.readlink(f"/proc/{runner}/cwd") == "/"


def test_the_runner_of_a_stand_in_holds_no_file_of_the_programs_but_its_errors(stand_in):
    """So that who reads the program's output sees its end."""
    it, runner = stand_in
    held = {int(name): os.readlink(f"/proc/{runner}/fd/{name}") for name in os.listdir(f"/proc/{runner}/fd")}
    assert held.pop(2) == os.readlink(f"/proc/{it.pid}/fd/2")
    assert held[0] == held[1] == "/dev/null"
    assert not [name for name in held.values() if name.startswith("pipe:")], held


def test_a_limit_on_the_programs_files_is_none_of_its_record(stand_in):
    it, _ = stand_in
    it.stdin.close()
    assert it.wait(SOON) == RAN
    assert comes(lambda: len(paths_in(RECORDS)) == 1 and Record(paths_in(RECORDS)[0]).state == "ended")
    assert count_in(paths_in(RECORDS)[0]) == EVENTS
