"""Runs that are recorded and replayed in the model, and what is printed of them."""
import os
import subprocess

import pytest
from filelock import FileLock

from tests.calls import SOURCES, run, words_of
from tests.needs import need

FLAGS = (
    "-O1 -static -no-pie -nostdlib -fno-stack-protector -fcf-protection=none -mno-avx512f "
    "-fno-tree-loop-distribute-patterns"
)
NUMBER = "([0-9]+)"
WELL = [
    rf"run: {NUMBER} steps, {NUMBER} asked, {NUMBER} leave flags undefined; there the program ends \(exit 7\)",
    r"premises: they hold at each step \(quiet yes\)",
    rf"processor and model: they agree after {NUMBER} steps, and at 3 states before",
    rf"original and patched file \({NUMBER} of {NUMBER} sites patched\): they look alike after {NUMBER} steps "
    rf"of the original and {NUMBER} of the patched file",
]


def share_recorder(shared: str, monkeypatch: pytest.MonkeyPatch) -> None:
    """The recorder of runs is built once, in a cache that all workers share."""
    need("sed")
    monkeypatch.setenv("XDG_CACHE_HOME", f"{shared}/cache")
    with FileLock(f"{shared}/recorder.lock"):
        if not os.path.isfile(f"{shared}/recorder"):
            program, _ = build("NONE")
            _, _, told = replay("--steps", "1", program)
            assert "libzydis-dev" not in told and "ptrace is not allowed" not in told, told
            os.link(program, f"{shared}/recorder")


def build(name: str, source: str = "replay.c") -> tuple[str, str | None]:
    """The program that does what the macro says, and the address of its label `here`, if it has one."""
    run("gcc", *FLAGS.split(), f"-D{name}", "-o", name, f"{SOURCES}/{source}")
    told = run("nm", name)
    return f"./{name}", next((line.split()[0] for line in told.splitlines() if line.endswith(" here")), None)


def replay(*words: str, tool: str | None = None, code: str = "") -> tuple[int, list[str], str]:
    """The status, the lines that are printed after the program's own, and what stands on standard error."""
    given = {**os.environ, "E9TOOL": tool or os.environ["E9TOOL"]}
    command = words_of("replay_run", *words, code=code)
    done = subprocess.run(command, capture_output=True, text=True, env=given, check=False)
    lines = done.stdout.splitlines()
    return done.returncode, [line for line in lines if ": " in line], done.stderr
