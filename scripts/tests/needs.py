"""What is not here is not tried, and what is not tried has not passed: a test fails then, by name, unless that is
allowed.

scripts/needed_tools.txt has each tool that a test asks for, with the Debian package that has it.
"""
import os
import shutil
from typing import NoReturn

import pytest

from tests.calls import SCRIPTS

MAY = "VAKNUHOL_TESTS_MAY_SKIP"
LIST = f"{SCRIPTS}/needed_tools.txt"


def packages() -> dict[str, str]:
    """The Debian package of each command that the tests need."""
    with open(LIST, encoding="ascii") as file:
        rows = [line.split() for line in file if line.strip() and not line.startswith("#")]
    return {name: package for kind, name, package in rows if kind == "command"}


def left_out(why: str) -> NoReturn:
    """Ends a test that can't be made here: it fails, or where CI is not true and MAY is 1 it is skipped."""
    if os.environ.get(MAY) == "1" and os.environ.get("CI") != "true":
        pytest.skip(why)
    pytest.fail(f"not tried: {why} ({MAY}=1 without CI=true lets that pass)", pytrace=False)


def need(*commands: str) -> None:
    """Ends a test for which a command is missing; each stands in the list."""
    known = packages()
    assert set(commands) <= known.keys(), f"{LIST} lacks {set(commands) - known.keys()}"
    missing = [name for name in commands if not shutil.which(name)]
    if missing:
        left_out(", ".join(f"{name} is not here (Debian package {known[name]})" for name in missing))
