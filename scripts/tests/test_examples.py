"""The examples: each ends with what its head says."""
import re

import pytest

from tests.calls import TOP, run
from tests.needs import left_out

# What the last lines of the examples are, or what is missing for one.
EXAMPLES = {
    "hello": r"0x20040:\s+0x01\n",
    "count": r"465\n",
    "ring": r"worth +orders\.c:8\n",
    "threads": r"4000\n",
    "replay": r"premises: they hold at each step .+\nprocessor and model: they agree after .+\n"
    r"original and patched file .+: they look alike after .+\n",
}
MISSING = re.compile("ptrace is not allowed|missing: .*|needs rt of the Rattle kit, which is not here")


@pytest.mark.parametrize("name", EXAMPLES)
def test_each_example_ends_as_its_head_says(name):
    told = run(f"{TOP}/examples/{name}.sh", status=(0, 1, 2))
    missing = MISSING.search(told)
    if missing:
        left_out(missing[0])
    assert re.search(EXAMPLES[name] + r"\Z", told), f"{name}.sh: {told}"
