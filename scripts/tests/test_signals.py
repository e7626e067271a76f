"""Signals to patched programs: what they print is as the original prints it, whatever is recorded. All blocks are
patched by count, and those of the program's own files by other actions: with functions alone hardly a signal falls into
a trampoline, and nothing would be tested."""
import bisect
import collections
import json
import re
import shutil
import signal
import subprocess
import sys
import time
from collections.abc import Callable

import pytest

from tests.calls import rows_of, run
from tests.command import COMMAND, call
from tests.needs import need
from tests.programs import Programs
from tests.stepping import single_steps
from tests.tracing import RIP, register

CASES = (
    "counted",
    "interrupted",
    "restarted",
    "faulting",
    "nested",
    "stopped",
    "children",
    "queued",
    "trapped",
    "waits",
)
ACTIONS = {
    "count": ("count", "--no-threads"),
    "ring": ("ring", "64", "--no-threads", "--own"),
    "ring of threads": ("ring", "64", "--threads", "--own"),
    "condition": ("count", "--no-threads", "--when", "rdi < 1000000000", "--own"),
}
ELSEWHERE = re.compile(
    r"_dl_(early_allocate|get_origin|non_dynamic_init|find_object)|_dlfo_|__libc_setup_tls|sysmalloc|"
    r"s?brk$|mmap64|__memmove_"
)
VECTORS = re.compile(r"__(mem|raw|stp|str|wcs|wmem)\w*_(sse|avx|evex)")  # which way they go hangs on where a page ends
N, MIXED, SOON = 1_000_000, 8, 1200  # seconds, so that a test ends where a program never does
ASH, RUNS = "52c000-534000", 2  # where ash stands in Debian 12's busybox-static
SCRIPT = """trap 'n=$((n+1))' USR1
trap 'echo "bye $s"' EXIT
n=0; s=1; i=0
echo ready
while [ $i -lt 20000 ]; do s=$(( (s*31+i) % 1000003 )); i=$((i+1)); done
a=$(i=0; while [ $i -lt 300 ]; do echo $i; i=$((i+1)); done | while read x; do case $x in *7) echo $x;; esac; done)
( trap 'exit 7' TERM; i=0; while [ $i -lt 200000 ]; do i=$((i+1)); [ $i = 50 ] && kill -TERM $(exec sh -c 'echo $PPID')
done ); r=$?
echo "sum $s $r" $a
while [ $n -le 10 ]; do :; done
echo some signals
exit 5
"""


def printed(*words: str) -> tuple[str, str]:
    """What a program prints, on both."""
    done = subprocess.run(words, capture_output=True, text=True, timeout=SOON, check=False)
    assert done.returncode == 0, f"{' '.join(words)} ended with {done.returncode}: {done.stdout}{done.stderr}"
    return done.stdout, done.stderr


def stand_in(*words: str) -> str:
    """The stand-in of the program with all blocks patched, and without records yet."""
    path = f"./signals.{len(words)}{words[0]}"
    call("wrap", *words, "signals", "--blocks", "-o", path)
    call("clean", "signals")
    return path


def exact(path: str) -> None:
    """Each execution of a block is counted, and none twice, although handlers came in between."""
    ticks, rounds = map(int, printed(path, "counted")[1].split())
    call("report", "signals", "--json", "signals.json")
    with open("signals.json", encoding="utf-8") as file:
        functions = {
            it["name"]: it["execution_count"] for files in json.load(file)["files"] for it in files["functions"]
        }
    assert ticks > 10 and functions["on"] == ticks, f"{ticks} signals, and {functions['on']} calls of the handler"
    assert (
        functions["mix"] == N * rounds + MIXED * ticks
    ), f"{functions['mix']} calls, and not {N * rounds + MIXED * ticks}"


@pytest.fixture
def signals(programs: Programs) -> None:
    """The program `signals` in the working folder."""
    programs.bring("signals", "signals.c", "-pthread")


@pytest.fixture
def counted(signals: None, programs: Programs) -> None:
    """The same with the patched file of all its blocks, those of the C library too."""
    programs.patch("signals", *ACTIONS["count"], "PROGRAM", "--blocks")


@pytest.mark.parametrize("action", ACTIONS)
def test_each_case_prints_what_the_original_prints(signals, action, request) -> None:
    if action == "count":
        request.getfixturevalue("counted")
    path = stand_in(*ACTIONS[action])
    for case in CASES:
        wanted, told = printed("./signals", case)[0], printed(path, case)[0]
        assert told == wanted, f"{case}: {told} and not {wanted}"


def test_counts_are_exact_although_handlers_come_in_between(counted) -> None:
    exact(stand_in(*ACTIONS["count"]))


def test_counts_for_threads_where_a_condition_holds_are_exact_although_handlers_come_in_between(signals) -> None:
    """It holds at each execution."""
    exact(stand_in("count", "--threads", "--when", "rsp > 0 and rax >= 0"))


OF_THREADS = {
    "count": ("count",),
    "condition": ("count", "--when", "rdi < 1000000000 and rax != 5"),
    "ring": ("ring", "64"),
}


@pytest.mark.parametrize("words", OF_THREADS.values(), ids=OF_THREADS)
def test_cases_of_a_program_that_is_patched_for_threads_print_the_same(signals, words) -> None:
    path = stand_in(*words, "--threads", "--own")
    for case in ("counted", "faulting", "nested", "queued", "threads"):
        wanted, told = printed("./signals", case)[0], printed(path, case)[0]
        assert told == wanted, f"{case}: {told} and not {wanted}"


def flooded(path: str) -> tuple[str, int]:
    """What busybox's ash prints, and its status, while signals come to it as fast as they can be sent."""
    with subprocess.Popen(["busybox", "sh", "-c", SCRIPT], executable=path, stdout=subprocess.PIPE, text=True) as shell:
        assert shell.stdout and shell.stdout.readline() == "ready\n"
        end = time.monotonic() + SOON
        while shell.poll() is None and time.monotonic() < end:
            shell.send_signal(signal.SIGUSR1)
            time.sleep(0.0002)
        shell.kill()
        return shell.stdout.read(), shell.returncode


@pytest.mark.parametrize(
    "words", [("count",), ("ring", "64"), ("ring", "64", "--threads"), ("count", "--when", "rdi < 1000000000")]
)
def test_a_shell_with_traps_is_the_original_under_a_flood_of_signals(words) -> None:
    """Its heart is patched: where signals were not held, it breaks off or prints wrong sums in nearly each run."""
    need("busybox")
    shutil.copy(shutil.which("busybox") or "", "busybox")
    wanted = flooded("./busybox")
    assert wanted[0].endswith("some signals\nbye 990470\n") and wanted[1] == 5, wanted
    call("wrap", *words, "busybox", "--blocks", "--within", ASH, "-o", "ash")
    for _ in range(RUNS):
        told = flooded("./ash")
        assert told == wanted, f"{told} and not {wanted}"


def comparable(path: str) -> Callable[[int], bool]:
    """Tells whether two runs of a program count the same at an address. Left out is what looks at the program header
    table or the break, which a patched file has elsewhere; of functions that read vectors all but their entries, since
    no two runs have their stacks at the same address."""
    symbols = sorted((int(it[0], 16), it[2]) for it in map(str.split, run("nm", "--defined-only", path).splitlines()))

    def is_comparable(site: int) -> bool:
        addr, name = symbols[bisect.bisect(symbols, (site, "~")) - 1]
        return not ELSEWHERE.match(name) and (site == addr or not VECTORS.match(name))

    return is_comparable


def test_each_site_counts_what_single_steps_of_the_original_see(counted) -> None:
    """Faults that a handler leaves by siglongjmp, handlers in handlers, another stack, sigwait."""
    visits: collections.Counter[int] = collections.Counter()
    at = lambda pid: (register(pid, RIP),)
    single_steps(
        ["./signals", "repeatable"], lambda pid: visits.update(at(pid)), signalled=lambda pid: visits.subtract(at(pid))
    )
    words = "count ./signals --no-threads --blocks --quiet --record repeatable.record -- repeatable".split()
    subprocess.run([sys.executable, COMMAND, *words], stdout=subprocess.DEVNULL, check=True)
    rows = [row for row in rows_of("repeatable.record") if row.count is not None]
    is_comparable = comparable("signals")
    compared = [row for row in rows if is_comparable(row.site)]
    wrong = [
        f"{row.site:x}: {row.count} and not {visits[row.site]}" for row in compared if row.count != visits[row.site]
    ]
    executed = sum(1 for row in compared if row.count)
    assert not wrong, wrong
    assert executed > 1000 and 4 * len(compared) > 3 * len(rows), (executed, len(compared), len(rows))


@pytest.mark.parametrize("words", ACTIONS.values(), ids=ACTIONS)
def test_a_program_that_steps_itself_makes_as_many_steps(programs: Programs, words) -> None:
    programs.bring("steps_itself", "steps_itself.c")
    wanted = run("./steps_itself", "number")
    call("wrap", *{word: None for word in (*words, "--own")}, "steps_itself", "-o", "stand-in")
    assert run("timeout", "20", "./stand-in", "number") == wanted
