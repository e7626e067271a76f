"""Runs to which signals come, recorded and replayed in the model: handlers are entered and left where they were."""
import pytest

from tests.calls import match
from tests.needs import need
from tests.replaying import NUMBER, WELL, build, replay, share_recorder

DELIVERED = [
    WELL[0].replace(";", f", {NUMBER} deliveries;"),
    *WELL[1:3],
    f"{WELL[3]}, and as delivery {NUMBER} comes",
]
CONDITION = ("--count", "--when", "rax > 3 and rcx <= 99 and rsp != 0")
TRAP = """trap 'n=$((n+1))' USR1
n=0; i=0
while [ $i -lt 5 ]; do kill -USR1 $$; i=$((i+1)); done
[ $n = 5 ] && exit 7
"""
ASH = "52c000-534000"  # where ash stands in Debian 12's busybox-static


@pytest.fixture(autouse=True)
def recorder(shared: str, monkeypatch: pytest.MonkeyPatch) -> None:
    share_recorder(shared, monkeypatch)


def check_delivered(least: int, *words: str) -> None:
    """The four lines of a run with at least so many deliveries."""
    status, lines, told = replay(*words)
    assert status == 0 and len(lines) == 4, f"{words}: {status} {lines} {told}"
    found = [match(f"^{form}$", line) for form, line in zip(DELIVERED, lines)]
    steps, _, _, deliveries = map(int, found[0].groups())
    _, _, original, made, _ = map(int, found[3].groups())
    assert deliveries >= least and int(found[2].group(1)) == original == steps < made, lines


@pytest.mark.parametrize("words", (("--count",), ("--ring", "9"), CONDITION), ids=" ".join)
def test_signals_come_again_where_they_came(words: tuple[str, ...]) -> None:
    """Those of the program itself and of a timer, by faults (one in a repeated instruction), in handlers, out of calls
    that end or begin anew; each handler is entered and left."""
    check_delivered(2 * (40 + 4 + 110 + 6 + 4), "--blocks", *words, build("DELIVERED", "delivered.c")[0])


def test_traps_of_a_shell_come_again() -> None:
    need("busybox")
    check_delivered(2 * 5, "--blocks", "--within", ASH, "--count", "busybox", "sh", "-c", TRAP)
