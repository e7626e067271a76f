"""Records of processes that run on, and of core files."""
import os
import resource
import signal
import subprocess

import pytest

from tests.command import STEP, call, count_of
from tests.needs import left_out, need
from vaknuhol.arguments import Refusal
from vaknuhol.recording.process_memory import readers

CORE_PATTERN, SOON = "/proc/sys/kernel/core_pattern", 1000  # dumps, so that a test ends where a count never grows


def higher(pid, before):
    """What a dump shows, and its count, once that is higher than before."""
    for _ in range(SOON):
        shown, _ = call("dump", str(pid))
        count = count_of(shown, f"{STEP}  tour.cc:11") if f"{STEP}  tour.cc:11" in shown else 0
        if count > before:
            return shown, count
    raise AssertionError(f"the count stays {before}")


def test_a_program_that_runs_on_is_dumped_three_times(counted_tour):
    """It isn't stopped, and its counts grow."""
    (path,) = call("count", "tour", "--patch-only")[0].split()
    it = subprocess.Popen([f"./{path}", "long"], stdout=subprocess.DEVNULL)
    told = [0]
    try:
        for _ in range(3):
            shown, count = higher(it.pid, told[-1])
            told.append(count)
            assert f"wrote {it.pid}.record" in shown and "this is the record so far" in shown
        assert it.poll() is None, "the program ended"
    finally:
        it.kill()
        it.wait()


def test_a_program_that_is_not_patched_has_nothing_to_dump():
    it = subprocess.Popen(["sleep", "3600"])
    try:
        assert "which is no patched file by its name" in call("dump", str(it.pid), status=2)[1]
    finally:
        it.kill()
        it.wait()


@pytest.fixture
def patched(counted_tour) -> str:
    """The path of the patched file; core files can be read here."""
    try:
        readers()
    except Refusal as refusal:
        left_out(str(refusal))
    return call("count", "tour", "--patch-only")[0].split()[0]


def executions_before_the_crash(core: str) -> None:
    shown, _ = call("dump", core, "--record", "crash.record")
    assert count_of(shown, f"{STEP}  tour.cc:11") == 12 and "this is the record so far" not in shown, shown
    assert "it was ended by SIGABRT\n" in shown, shown


def test_a_core_file_of_the_kernel_has_the_counts_up_to_the_crash(patched):
    limit = resource.getrlimit(resource.RLIMIT_CORE)
    with open(CORE_PATTERN, encoding="ascii") as file:
        is_plain = not file.read().startswith(("|", "/"))
    if not is_plain or limit[1] == 0:
        pytest.skip("the kernel writes core files elsewhere, or none; the test of gdb's has the same")
    os.makedirs("crashed")
    open_wide = lambda: resource.setrlimit(resource.RLIMIT_CORE, (limit[1], limit[1]))
    done = subprocess.run([os.path.realpath(patched), "crash", "12"], cwd="crashed", preexec_fn=open_wide)
    assert done.returncode == -signal.SIGABRT
    (name,) = [it for it in os.listdir("crashed") if it.startswith("core")]
    executions_before_the_crash(f"crashed/{name}")


def test_a_core_file_of_gdb_has_the_counts_up_to_the_crash(patched):
    need("gdb")
    words = ["-ex", "run crash 12", "-ex", "generate-core-file by_gdb.core", patched]
    subprocess.run(["gdb", "-q", "-batch", *words], capture_output=True)
    executions_before_the_crash("by_gdb.core")
