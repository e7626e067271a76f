"""Runs that are recorded and replayed in the model: those of a small C program, and of what no quiet run does."""
import os
import re
import subprocess
import sys
from typing import Any

import pytest

from tests.calls import SCRIPTS, SOURCES, match, run
from tests.doubles import double
from tests.replaying import WELL, build, replay, share_recorder
from vaknuhol.recording.replay import steps_to

@pytest.fixture(autouse=True)
def recorder(shared: str, monkeypatch: pytest.MonkeyPatch) -> None:
    share_recorder(shared, monkeypatch)


@pytest.fixture
def program() -> str:
    return build("NONE")[0]


def check_well(program, *words):
    status, lines, told = replay(*words, program)
    assert status == 0 and len(lines) == 4, f"{words}: {status} {lines} {told}"
    found = [match(f"^{form}$", line) for form, line in zip(WELL, lines)]
    steps, asked, flags = map(int, found[0].groups())
    patched, sites, original, made = map(int, found[3].groups())
    assert 4000 < steps < 20000 and asked > 50 and flags > 50, lines
    assert int(found[2].group(1)) == original == steps < made and 0 < patched <= sites, lines
    return steps


CHOICES = (
    ("--jumps", "--count"),
    ("--blocks",),
    ("--functions", "--count"),
    ("--full",),
    ("--within", "0-500000"),
    ("--blocks", "--ring", "9"),
    ("--blocks", "--count", "--when", "rax > 3 and rcx <= 99 and rsp != 0"),
)


@pytest.mark.parametrize("words", CHOICES, ids=" ".join)
def test_processor_model_and_patched_file_agree(program, words):
    """The four lines of a quiet run, for each way to choose sites and each action."""
    check_well(program, *words)


def test_processor_model_and_patched_file_agree_of_a_program_that_forks():
    check_well(build("FORKS")[0])


LOUD = {
    "ENTERS": r"premises: they hold for {0} steps; step {1}, at 0*{here}, leads to [0-9a-f]+, which is no listed start",
    "READS": r"premises: they hold for {0} steps; step {1}, at 0*{here}, reads or writes a listed "
    r"instruction as data \(8b 05 .*\)",
    "EVEX": r"premises: they hold for {0} steps; step {1} is not made: UnknownInsn 0*{here}, bytes without "
    r"a spelling \(62 .*: EVEX\)",
}


@pytest.mark.parametrize("name, form", LOUD.items(), ids=LOUD)
def test_the_step_that_leaves_the_premises_is_told(name, form):
    """And up to it original and patched file look alike."""
    with open("/proc/cpuinfo", encoding="utf-8") as file:
        if name == "EVEX" and "avx512f" not in file.read():
            pytest.skip("this processor has no AVX-512")
    program, here = build(name)
    assert here is not None
    status, lines, told = replay(program)
    assert status == 1 and len(lines) == 4, f"{name}: {status} {lines} {told}"
    held = int(lines[1].split()[4])
    assert held > 4000 and re.fullmatch(form.format(held, held + 1, here=here.lstrip("0")), lines[1]), lines[1]
    assert "they agree" in lines[2] and f"they look alike after {held} steps" in lines[3], lines


ENDS = {
    "DIES": (1, "there it gets signal 11, for which it has no handler"),
    "STARTS": (1, "there it starts a thread, of which the theorem does not speak"),
    "MAPS": (2, "the run needs 3[0-9] regions of memory; a script has at most 16"),
}


@pytest.mark.parametrize("name", ENDS)
def test_what_a_record_ends_at_is_told(name):
    wanted, text = ENDS[name]
    status, lines, told = replay(build(name)[0])
    assert status == wanted and re.search(text, "\n".join(lines) + told), f"{name}: {status} {lines} {told}"


@pytest.mark.parametrize(
    "words, text",
    [
        (("gone",), "gone: No such file or directory"),
        (("--steps", "0", "./plain"), "--steps is from 1 to 10000000, and --every from 1 on"),
        (("./NONE.pie",), "is dynamic, so its libraries are loaded as it runs: link with gcc -static, or take a static build of it"),
    ],
)
def test_what_cannot_be_replayed_is_refused(words, text):
    run("gcc", "-DNONE", "-pie", "-fPIE", "-nostdlib", "-o", "NONE.pie", f"{SOURCES}/replay.c")
    status, lines, told = replay(*words)
    assert (
        status == 2 and told.startswith("replay_run: ") and told.endswith(f"{text}\n") and not lines
    ), f"{words}: {status} {lines} {told}"


def test_a_patched_file_of_too_many_steps_is_compared_as_far_as_it_comes(program):
    code = (
        "import sys, replay_run, vaknuhol.recording.replay as replay; "
        "replay.MOST_STEPS = 3000; sys.exit(replay_run.main())"
    )
    done = subprocess.run(
        [sys.executable, "-c", code, "--steps", "3000", program],
        capture_output=True,
        text=True,
        cwd=os.getcwd(),
        env={**os.environ, "PYTHONPATH": SCRIPTS},
    )
    last = done.stdout.splitlines()[-1]
    assert done.returncode == 0 and re.search(
        r"alike after [12][0-9]{3} steps .*, where the patched file is at most 3000 steps far$", last
    ), done


def lying(name, file, line):
    """A program that answers as e9tool, but for one line of what `step` prints of one file."""
    with open(name, "w") as script:
        script.write(f'#!/bin/sh\n"{os.environ["E9TOOL"]}" "$@" > answer.$$; status=$?\n')
        script.write(
            f'case "$1 $2" in "step "{file}) sed -i "{line}" answer.$$;; esac\n'
            "cat answer.$$; rm answer.$$; exit $status\n"
        )
    os.chmod(name, 0o755)
    return os.path.realpath(name)


def test_a_model_that_differs_from_the_processor_is_noticed(program):
    status, lines, _ = replay(program, tool=lying("model", "*/NONE", "s/^r8 .*/r8 00000000000000ff/"))
    assert status == 1, lines
    assert re.match(
        "processor and model: THEY DIFFER between steps 0 and [0-9]+: r8 00000000000000ff, by the processor", lines[2]
    ), lines


@pytest.mark.parametrize(
    "line, text",
    [
        ("s/^flags .*/flags 0000000000000001/", "THEY DIFFER after [0-9]+ and [0-9]+ steps, in state$"),
        ("s/^outside .*/outside 77/", "THEY DIFFER: the patched file stops after [0-9]+ steps, WorldEmpty"),
    ],
    ids=["state", "ended"],
)
def test_a_patched_file_that_differs_from_the_original_is_noticed(program, line, text):
    status, lines, _ = replay(program, tool=lying("other", "*/patched", line))
    assert status == 1 and re.search(text, lines[3]), lines


class Counted:
    """A patched file whose outside states are known, for the search for the one of a number."""

    def __init__(self, outside, last):
        self.outside, self.last = outside, last

    def after(self, count):
        steps = min(count, self.last)
        outside = sum(1 for at in self.outside if at <= steps)
        return double(steps=steps, outside=outside, lines={"rip": str(int(steps in self.outside))})


def test_the_state_of_each_number_is_found_and_no_other():
    """However far apart they are."""
    for apart in ([1] * 40, [24] * 40, [1, 9] * 20, [1] * 20 + [24] * 20 + [1] * 20):
        outside = [sum(apart[:count]) for count in range(len(apart) + 1)]
        for behind in (0, 7, 23):
            patched: Any = Counted(set(outside), outside[-1] + behind)
            for number, at in enumerate(outside):
                for guess in (0, at, at + 1, at // 2):
                    assert steps_to(patched, {1}, number + 1, guess) == at, (apart, behind, number, guess)
            assert steps_to(patched, {1}, len(outside) + 1) is None
