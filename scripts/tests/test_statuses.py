"""The status of each ending, and what decides it."""
import argparse
import os
import signal
import subprocess
import sys
from typing import Any

import pytest

from tests.calls import match
from tests.command import COMMAND, call
from tests.doubles import double
from tests.programs import Programs
from vaknuhol import arguments
from vaknuhol.arguments import Refusal, run_command
from vaknuhol.commands import check, fit
from vaknuhol.program.stepped_run import SteppedRun
from vaknuhol.recording import runner


def raising(error: BaseException):
    def main() -> int:
        raise error

    return main


@pytest.mark.parametrize(
    "main, status, told",
    [
        (lambda: 0, 0, ""),
        (lambda: 7, 7, ""),
        (raising(Refusal("not so")), 42, "not so"),
        (raising(KeyboardInterrupt()), 130, ""),
        (raising(OSError(28, "No space left on device", "out/part.x/a")), 42, "out: No space left on device"),
        (raising(OSError(28, "No space left on device")), 42, "a file: No space left on device"),
    ],
)
def test_a_command_ends_with_a_status_for_each_ending(capsys, main, status, told):
    before = signal.getsignal(signal.SIGTERM)
    try:
        with pytest.raises(SystemExit) as ended:
            run_command(main, 42)
    finally:
        signal.signal(signal.SIGTERM, before)
    assert ended.value.code == status
    assert capsys.readouterr().err.partition(": ")[2] == (f"{told}\n" if told else "")


def test_sigterm_ends_a_command_with_its_status():
    code = f"import sys\nsys.path.insert(0, {os.path.dirname(os.path.dirname(arguments.__file__))!r})\n"
    code += "import os, signal, time\nfrom vaknuhol.arguments import run_command\n"
    code += "run_command(lambda: os.kill(os.getpid(), signal.SIGTERM) or time.sleep(60) or 0)"
    assert subprocess.run([sys.executable, "-c", code], check=False).returncode == 128 + signal.SIGTERM


@pytest.mark.parametrize("words", [["help"], ["--version"], ["clean", "--help"], ["clean", "p", "--records", "."]], ids=str)
def test_a_command_whose_output_nobody_reads_ends_as_by_sigpipe(words):
    """And says nothing, as other programs."""
    ours, theirs = os.pipe()
    os.close(ours)
    done = subprocess.run([sys.executable, COMMAND, *words], stdout=theirs, stderr=subprocess.PIPE, check=False)
    os.close(theirs)
    assert (done.returncode, done.stderr) == (128 + signal.SIGPIPE, b"")


@pytest.mark.parametrize("words", [["help"], ["--version"], ["clean", "--help"], ["clean", "p", "--records", "."]], ids=str)
def test_a_command_whose_output_is_full_says_so_in_one_line(words):
    with open("/dev/full", "wb") as full:
        done = subprocess.run(
            [sys.executable, COMMAND, *words], stdout=full, stderr=subprocess.PIPE, text=True, check=False
        )
    assert (done.returncode, done.stderr) == (2, "vaknuhol: a file: No space left on device\n")


def test_what_is_printed_before_another_file_fails_is_written(capfd):
    """As the lines of a table before an output that is full."""
    before = signal.getsignal(signal.SIGTERM)
    try:
        with pytest.raises(SystemExit) as ended:
            run_command(lambda: print("a line") or os.stat("gone").st_size)
    finally:
        signal.signal(signal.SIGTERM, before)
    assert ended.value.code == 2 and capfd.readouterr().out == "a line\n"


@pytest.mark.parametrize(
    "words, status",
    [(["true"], 0), (["sh", "-c", "exit 3"], 3), (["sh", "-c", "kill -9 $$"], 137), (["sh", "-c", "kill -15 $$"], 143)],
)
def test_a_runner_that_a_signal_ends_has_the_status_that_shells_give(words, status):
    """And the signals that were held back meanwhile aren't any more."""
    assert runner.supervise(words) == status
    assert not signal.pthread_sigmask(signal.SIG_BLOCK, ()) & set(runner.WATCHED)


def test_a_signal_that_is_sent_to_the_command_reaches_the_runner():
    code = "import os, signal; os.kill(os.getppid(), signal.SIGUSR1); signal.pause()"
    assert runner.supervise([sys.executable, "-c", code]) == 128 + signal.SIGUSR1


def put(text: str) -> None:
    """Another file under the record's name."""
    with open("half", "w", encoding="ascii") as file:
        file.write(text)
    os.replace("half", "record")


@pytest.mark.parametrize("is_before", [False, True])
@pytest.mark.parametrize(
    "done, is_recorded", [(lambda: None, False), (lambda: put("new"), True), (lambda: os.path.exists("record") and
                                                                              os.remove("record"), False)]
)  # fmt: skip
def test_a_record_was_written_where_another_stands_there_than_before(place, monkeypatch, is_before, done, is_recorded):
    """Not where an older one still stands there, nor where none does."""

    def supervise(words):
        assert words[1:] == [words[1], "table", f"{place}/record", "patched", "prog", "word"]
        done()
        return 5

    if is_before:
        put("old")
    monkeypatch.setattr(runner, "supervise", supervise)
    assert runner.run_recorded("table", "patched", ["prog", "word"], "record") == (5, is_recorded)


def of_steps(*lines: str) -> SteppedRun:
    """A run as the stepper tells it."""
    run = SteppedRun.__new__(SteppedRun)
    run.lines = [line.split() for line in ("steps 1000", "ended 0", *lines)]
    return run


LISTING: Any = double(program=double(segments=[(0x401000, 5, bytes(10))], end=0x40100A), ranges=lambda kind: [])


@pytest.mark.parametrize(
    "lines, is_against, told",
    [
        ((), False, "run: each executed instruction is listed, and no listed byte was read as data"),
        (("unlisted 401000",), True, "obstacle: 1 executed instruction is not listed as code: 401000"),
        (
            [f"unlisted {it}" for it in range(11)],
            True,
            "obstacle: 11 executed instructions are not listed as code: 0 1 2 3 4 5 6 7 8 9 ..",
        ),
        (
            ("read 401000 401004",),
            True,
            "obstacle: listed code is read as data: 401000-401004; a patched program reads other bytes there",
        ),
    ],
)
def test_steps_are_an_obstacle_where_they_leave_the_list_or_read_from_it(capsys, lines, is_against, told):
    assert fit.print_run(of_steps(*lines), LISTING, "") is is_against
    assert capsys.readouterr().out.splitlines() == ["run: 1000 steps, ended with 0", told]


@pytest.mark.parametrize("is_found", [False, True])
@pytest.mark.parametrize("steps", [None, of_steps(), of_steps("unlisted 401000")], ids=["not run", "well", "obstacle"])
def test_fit_ends_with_1_where_the_file_or_its_run_has_an_obstacle(monkeypatch, capsys, is_found, steps):
    """One of them is enough."""
    file = double(text_bytes=10, listed_bytes=10, block_first=[0])
    listing = double(**vars(LISTING), file=file, addr=[0])
    findings = [double(is_against=False, text="a note"), *[double(is_against=True, text="a finding")] * is_found]
    monkeypatch.setattr(fit, "settled", lambda path, folder, base: path)
    monkeypatch.setattr(fit, "Program", lambda path: double(base=0))
    monkeypatch.setattr(fit, "Listing", lambda *_: listing)
    monkeypatch.setattr(fit, "threads_of", lambda *_: "")
    monkeypatch.setattr(fit, "findings", lambda _: findings)
    monkeypatch.setattr(fit, "SteppedRun", lambda *_: steps)
    monkeypatch.setattr(fit, "folder_of", lambda _: "folder")
    words = argparse.Namespace(program="prog", base=None, own_words=None if steps is None else [], steps=0)
    is_against = is_found or bool(steps and steps.rows("unlisted"))
    assert fit.do(words) == int(is_against)
    told = capsys.readouterr().out
    assert ("no obstacle to patching it was seen" in told) is not is_against
    assert ("with -- ARGUMENTS a run is looked at" in told) is (steps is None and not is_against)
    assert ("obstacle: a finding" in told) is is_found and "note: a note" in told


def test_fit_calls_what_is_no_such_program_an_obstacle(place, capsys):
    with open("text", "w", encoding="ascii") as file:
        file.write("no program\n")
    assert fit.do(argparse.Namespace(program="text", base=None)) == 1
    assert capsys.readouterr().out == "obstacle: text is no ELF file\n"


@pytest.mark.parametrize("verdicts", [[True], [False], [False, True], [True, False], [True, True], [False, False]])
@pytest.mark.parametrize("has_stub", [False, True])
def test_check_ends_with_1_where_any_file_is_not_sound(monkeypatch, capsys, verdicts, has_stub):
    """The first, the last or another one."""
    answers = iter(verdicts)
    wanted = "check_again" if has_stub else "check"

    def judge(program, files):
        return f"{wanted} of {files.stem}", next(answers)

    stems = [f"p.vak/{number}" for number in range(len(verdicts))]
    monkeypatch.setattr(check, "all_of", lambda program, top: stems)
    monkeypatch.setattr(check, "settled_again", lambda program, base: program)
    monkeypatch.setattr(check, "kept_base", lambda stem: None)
    monkeypatch.setattr(check, "entry_of", lambda path: 1 + (has_stub and path != "p"))
    monkeypatch.setattr(check, wanted, judge)
    assert check.do(argparse.Namespace(program="p", into=None)) == (0 if all(verdicts) else 1)
    assert capsys.readouterr().out.splitlines() == [f"{stem}.patched: {wanted} of {stem}" for stem in stems]


def changed_code(patched: str) -> tuple[bytes, bytes]:
    """What a patched file holds, and the same with another byte in the first jump that was written."""
    with open(f"{patched.removesuffix('.patched')}.report", encoding="ascii") as file:
        new = bytes.fromhex(match(r"\nwrite [0-9a-f]+ [0-9a-f]+ (e9[0-9a-f]{8,})\n", file.read())[1])
    with open(patched, "rb") as file:
        whole = file.read()
    assert whole.count(new) == 1 and len(new) > 4
    return whole, whole.replace(new, bytes([new[0], new[1] ^ 1, *new[2:]]))


def test_check_rejects_a_changed_patched_file_wherever_it_stands(programs: Programs):
    """First of two or last, with the status 1; both are judged."""
    programs.bring("tiny", "tiny.c", "-nostdlib")
    paths = sorted(call(action, "tiny", "--patch-only")[0].strip() for action in ("count", "cover"))
    assert call("check", "tiny")[0].splitlines() == [f"{path}: check yes" for path in paths]
    for changed, other in (paths, paths[::-1]):
        whole, wrong = changed_code(changed)
        with open(changed, "wb") as file:
            file.write(wrong)
        lines = dict(line.split(": ", 1) for line in call("check", "tiny", status=1)[0].splitlines())
        assert lines.keys() == set(paths) and lines[other] == "check yes"
        assert lines[changed] != "check yes", lines
        with open(changed, "wb") as file:
            file.write(whole)
