"""Calls that the system fails, and kills, before each of the program's calls of the C library."""
import os
import signal
import subprocess

import pytest

from tests.needs import need
from tests.real_files import EMPTY, INPUTS, NOTHING, OUT, REPORT, SUMMARY, Cases, Row, held, holds, nothing, refused

# Fails the call that FAIL names, as a failing disk does, or the statx of the number FAIL_STATX, and kills the process
# before the call of the number KILL, statx aside.
LIBRARY = r"""
#define _GNU_SOURCE
#include <errno.h>
#include <fcntl.h>
#include <signal.h>
#include <stdarg.h>
#include <stdlib.h>
#include <string.h>
#include <sys/stat.h>
#include <sys/syscall.h>
#include <unistd.h>

static int fails(const char *call) {
    static int calls;
    const char *kill_at = getenv("KILL"), *fail = getenv("FAIL");
    if (kill_at && ++calls == atoi(kill_at)) kill(getpid(), SIGKILL);
    if (!fail || strcmp(fail, call)) return 0;
    errno = EIO;
    return 1;
}
int open(const char *path, int flags, ...) {
    va_list rest;
    va_start(rest, flags);
    mode_t mode = va_arg(rest, mode_t);
    va_end(rest);
    return fails("open") ? -1 : syscall(SYS_openat, AT_FDCWD, path, flags, mode);
}
ssize_t write(int fd, const void *bytes, size_t count) {
    return fails("write") && fd != 1 ? -1 : syscall(SYS_write, fd, bytes, count);
}
int ftruncate(int fd, off_t length) { return fails("ftruncate") ? -1 : syscall(SYS_ftruncate, fd, length); }
int fsync(int fd) { return fails("fsync") ? -1 : syscall(SYS_fsync, fd); }
int statx(int at, const char *path, int flags, unsigned mask, struct statx *told) {
    static int calls;
    const char *fail = getenv("FAIL_STATX");
    if (fail && ++calls == atoi(fail)) {
        errno = EIO;
        return -1;
    }
    return syscall(SYS_statx, at, path, flags, mask, told);
}
int close(int fd) {
    int failed = fails("close"), closed = syscall(SYS_close, fd);
    return failed ? -1 : closed;
}
"""

# The call that fails. What a file holds is on its disk before it is closed, so that a close that fails loses nothing.
CALLS = [
    Row("open", nothing, "O", "R", 4, "fault read F\n", {"O": NOTHING, "R": NOTHING}),
    Row("ftruncate", nothing, "O", "R", *refused("O"), {"O": EMPTY, "R": NOTHING}),
    Row("write", nothing, "O", "R", *refused("O"), {"O": EMPTY, "R": NOTHING}),
    Row("fsync", nothing, "O", "R", *refused("O"), {"O": OUT, "R": NOTHING}),
    Row("close", nothing, "O", "R", 0, SUMMARY),
]

# From the opening of OUT to the printing: the calls before are three openings and three closings of inputs.
MOMENTS = range(7, 22)


@pytest.fixture
def before(cases: Cases) -> dict[str, str]:
    """The environment with a library before the C library."""
    need("gcc")
    source, path = f"{cases.folder}/calls.c", f"{cases.folder}/calls.so"
    with open(source, "w", encoding="ascii") as file:
        file.write(LIBRARY)
    subprocess.run(["gcc", "-shared", "-fPIC", "-o", path, source], check=True)
    environment = {**os.environ, "LD_PRELOAD": path}
    cases.fresh()
    if cases.patch(env={**environment, "KILL": "1"}, stderr=subprocess.DEVNULL).returncode != -signal.SIGKILL:
        pytest.skip("this program takes no other C library")
    return environment


@pytest.mark.parametrize("row", CALLS, ids=lambda row: row.what)
def test_a_call_that_fails_is_a_fault_of_its_file(cases: Cases, before: dict[str, str], row: Row) -> None:
    cases.fresh()
    cases.try_row(row, env={**before, "FAIL": row.what})


TEXTS: dict[str, object] = {"O": b"before O", "R": b"before R"}


@pytest.mark.parametrize("number, name", list(enumerate(INPUTS, 1)))
def test_an_input_of_which_nothing_is_told_is_a_fault(
    cases: Cases, before: dict[str, str], number: int, name: str
) -> None:
    """Since it would not be known again."""
    cases.fresh(lambda: [holds(*it)() for it in TEXTS.items()])
    row = Row(f"statx of {name}", nothing, f"./{name}", "R", 4, f"fault read {name}\n", TEXTS)
    cases.try_row(row, env={**before, "FAIL_STATX": str(number)})


@pytest.mark.parametrize("number, name, left", [(4, "O", TEXTS), (5, "R", TEXTS | {"O": OUT})])
def test_an_output_of_which_nothing_is_told_stays_as_it_was(
    cases: Cases, before: dict[str, str], number, name, left
) -> None:
    cases.fresh(lambda: [holds(*it)() for it in TEXTS.items()])
    row = Row(f"statx of {name}", nothing, "O", "R", *refused(name), left)
    cases.try_row(row, env={**before, "FAIL_STATX": str(number)})


def test_there_is_no_sixth_statx(cases: Cases, before: dict[str, str]) -> None:
    cases.fresh()
    cases.try_row(Row("no sixth statx", nothing, "O", "R", 0, SUMMARY), env={**before, "FAIL_STATX": "6"})


def test_after_a_kill_each_output_is_as_it_was_or_a_front_of_the_whole(cases: Cases, before: dict[str, str]) -> None:
    """And REPORT isn't begun before OUT is whole; before each of the program's calls."""
    for moment in MOMENTS:
        cases.fresh()
        done = cases.patch(env={**before, "KILL": str(moment)})
        assert (done.returncode, done.stdout) == (-signal.SIGKILL, ""), f"kill {moment}: {done}"
        out, report = held("O"), held("R")
        assert out is NOTHING or cases.texts[OUT].startswith(out), f"kill {moment}: OUT is no front of the patched file"
        assert report is NOTHING or cases.texts[REPORT].startswith(
            report
        ), f"kill {moment}: REPORT is no front of the report"
        assert report is NOTHING or out == cases.texts[OUT], f"kill {moment}: REPORT was begun before OUT was whole"
        assert all(held(name) == cases.texts[name] for name in INPUTS), f"kill {moment}: an input has changed"
    assert (out, report) == (cases.texts[OUT], cases.texts[REPORT]), "the last moment is not the printing"
