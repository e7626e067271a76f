"""The sources of the C programs: their form, and that inputs which nobody meant to be read are read or refused."""
import glob
import subprocess
import sys

import pytest

from tests.calls import TOP

FUZZED = ("lister", "lines", "run_file", "record", "list_reader")


def test_all_are_of_one_form() -> None:
    """By .clang-format."""
    paths = [path for top in ("native", "tests/fuzz") for path in glob.glob(f"{TOP}/{top}/**/*.[ch]", recursive=True)]
    done = subprocess.run(["clang-format", "--dry-run", "-Werror", *paths], capture_output=True, text=True, check=False)
    assert len(paths) > 80 and not done.returncode, done.stderr


@pytest.mark.parametrize("target", FUZZED)
def test_no_seed_shows_a_fault(target: str) -> None:
    """By libFuzzer, with sanitizers; tests/fuzz.py tries more than the seeds."""
    done = subprocess.run(
        [sys.executable, f"{TOP}/tests/fuzz.py", "0", target], capture_output=True, text=True, check=False
    )
    seeds = len(glob.glob(f"{TOP}/tests/fuzz/seeds/{target}/*"))
    assert seeds and done.returncode == 0 and done.stdout == f"{target}: {seeds} seeds\n", done
