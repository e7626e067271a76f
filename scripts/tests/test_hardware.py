"""bench/hardware: a short run of each comparison with the processor finds nothing, and finds each of three mutants;
what a processor hasn't is skipped, and told."""
import os
import re
import subprocess

import pytest

from tests.calls import TOP
from tests.needs import need

pytestmark = pytest.mark.xdist_group("hardware")
HARDWARE = f"{TOP}/bench/hardware"
SEED = "80"
COUNT = 100_000
# A processor that is wrong on purpose: the program, the mutant's name, how many are drawn, and what has to be told.
MUTANTS = (
    ("lengths", "length", 30_000, r"difference: 0F a3, \w+, \d+ times; the processor (\d+) bytes, the program (\d+):"),
    ("meanings", "flag", 5_000, r"difference: sbb \d+ differs:"),
    ("meanings", "upper", 5_000, r"difference: mov 32 differs: .*\b8b "),
)
LACKING = ("avx2", "fma", "adx")  # extensions that a processor is said not to have
CPUINFO = "/proc/cpuinfo"


@pytest.fixture(scope="module")
def built(module_place: str) -> str:
    """The folder of the programs that compare."""
    need("gcc")
    with open(CPUINFO, encoding="utf-8") as file:
        if not re.search(r"\blahf_lm\b", file.read()):
            pytest.skip("the processor has no LAHF in 64-bit mode")
    status, told = run([os.path.join(HARDWARE, "build.sh"), module_place])
    assert status == 0, told
    return module_place


def run(words: list[str]) -> tuple[int, str]:
    done = subprocess.run(words, capture_output=True, text=True, check=False)
    return done.returncode, done.stdout + done.stderr


def number(pattern: str, told: str) -> int:
    found = re.search(pattern, told)
    assert found, f"nothing is told of {pattern!r}: {told}"
    return int(found.group(1))


def test_a_short_run_finds_no_difference(built: str, monkeypatch: pytest.MonkeyPatch) -> None:
    """Every form is met, and each spoilt trial is found."""
    monkeypatch.setenv("BUILT", built)
    status, told = run([os.path.join(HARDWARE, "run.sh"), SEED, str(COUNT)])
    if status == 2 and "can't be made here" in told:
        pytest.skip("no filter of seccomp or no memory at a fixed address is allowed")
    assert status == 0, told
    assert number(r"sequences (\d+),", told) >= COUNT, told
    assert number(r"lengths that agree (\d+):", told) >= COUNT // 5, told
    assert number(r"exact instructions (\d+),", told) == COUNT, told
    assert number(r"each at least (\d+) times", told) >= 100, told
    asked = number(r"asked instructions (\d+),", told)
    assert COUNT * 0.9 < asked <= COUNT, told
    assert re.findall(r"in each of them one spoilt trial: (\d+) not found", told) == ["0", "0"], told
    steps = [
        sum(map(int, line.split()[-4:]))
        for line in told.splitlines()
        if re.match(r"(made|page fault|protection fault)  ", line)
    ]
    assert sum(steps) == COUNT // 100 and min(steps) > 0, told


@pytest.mark.parametrize("name, mutant, count, pattern", MUTANTS, ids=[f"{it[0]}-{it[1]}" for it in MUTANTS])
def test_what_is_wrong_on_purpose_is_found(
    built: str, e9tool: str, name: str, mutant: str, count: int, pattern: str
) -> None:
    status, told = run([os.path.join(built, name), e9tool, SEED, str(count), "2", mutant])
    assert status == 1, f"{name} {mutant}: status {status}: {told}"
    assert re.search(pattern, told), f"{name} {mutant}: {told}"
    wrong = [line for line in told.splitlines() if line.startswith("difference: ") and not re.match(pattern, line)]
    assert not wrong, f"{name} {mutant}: {wrong}"


def forms_of_asked(tool: str, folder: str) -> tuple[int, str]:
    """How many forms a run without differences has, and what it told."""
    status, told = run([os.path.join(folder, "asked"), tool, SEED, "2000"])
    assert status == 0, told
    return number(r"asked instructions \d+, of (\d+) forms", told), told


def test_instructions_of_an_extension_that_the_processor_lacks_are_left_out_and_named(
    built: str, e9tool: str, place: str, monkeypatch: pytest.MonkeyPatch
) -> None:
    whole, _ = forms_of_asked(e9tool, built)
    with open(CPUINFO, encoding="utf-8") as file, open(f"{place}/cpuinfo", "w", encoding="utf-8") as made:
        here = file.read()
        without = re.sub(rf" ({'|'.join(LACKING)})\b", "", here)
        made.write(without)
    monkeypatch.setenv("CPUINFO", f"{place}/cpuinfo")
    fewer, told = forms_of_asked(e9tool, built)
    named = re.findall(r"no (\w+) here: \w+ q= [0-9a-f]+ .* is skipped", told)
    assert set(LACKING) <= set(named), told
    assert fewer + 2 * len(named) >= whole >= fewer, f"{whole} forms, {fewer} without {named}"
    assert (fewer < whole) == (without != here), f"{whole} forms, {fewer} without {LACKING}"
