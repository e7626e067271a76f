"""Patched files that run without the runner: which of them are safe although handlers come inside trampolines."""
from tests.calls import run
from tests.command import call
from tests.programs import Programs


def test_a_file_that_covers_for_threads_is_safe_with_handlers(programs: Programs) -> None:
    """Its events are one store, and no displaced instruction keeps anything in memory: a handler disturbs nothing."""
    programs.bring("calling", "calling.c", "-O2")
    (path,) = call("cover", "calling", "--own", "--threads", "--patch-only")[0].split()
    for _ in range(3):
        assert run(f"./{path}") == "OK, and signals came\n"
