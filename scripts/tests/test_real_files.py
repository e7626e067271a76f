"""The proved program on real files: full disks, readers that go away, modes, its command line."""
import os
import stat
import subprocess

import pytest

from tests.real_files import EMPTY, NOTHING, OUT, REPORT, SUMMARY, Cases, Row, held, holds, nothing, refused

# File systems of so many pages of 4,096 bytes: OUT has five, REPORT one.
DISKS = [
    Row(pages, nothing, "disk/O", "disk/R", *refused("disk/O"), {"disk/O": 4096 * pages, "disk/R": NOTHING})
    for pages in (1, 2, 3, 4)
] + [
    Row(5, nothing, "disk/O", "disk/R", *refused("disk/R"), {"disk/O": OUT, "disk/R": EMPTY}),
    Row(6, nothing, "disk/O", "disk/R", 0, SUMMARY, {"disk/O": OUT, "disk/R": REPORT}),
]

# FILE's mode, OUT's before (None: it is new), the mask, OUT's mode afterwards.
MODES = [
    (0o755, None, 0o022, 0o755),
    (0o755, None, 0o077, 0o700),
    (0o4711, None, 0o000, 0o777),
    (0o644, None, 0o022, 0o644),
    (0o755, 0o600, 0o022, 0o600),
    (0o644, 0o755, 0o022, 0o755),
]


@pytest.mark.skipif(os.geteuid() != 0, reason="full disks need root, who mounts them")
@pytest.mark.parametrize("row", DISKS, ids=lambda row: f"{row.what} pages")
def test_a_full_disk_is_a_fault_of_the_output_that_does_not_fit(cases: Cases, row: Row) -> None:
    """Of each size, by a file system in memory that is mounted for this."""
    cases.fresh(lambda: os.mkdir("disk"))
    options = f"size={row.what * 4096},mode=777"
    if subprocess.run(
        ["mount", "-t", "tmpfs", "-o", options, "tmpfs", "disk"], capture_output=True, check=False
    ).returncode:
        pytest.skip("nothing can be mounted here")
    try:
        cases.try_row(row)
    finally:
        subprocess.run(["umount", "disk"], check=True)


def test_where_the_reader_of_what_is_printed_goes_away_both_outputs_are_whole(cases: Cases) -> None:
    """And the status tells it."""
    cases.fresh()
    reader, writer = os.pipe()
    os.close(reader)
    done = cases.patch(stdout=writer)
    os.close(writer)
    assert done.returncode == 5, f"a reader that goes away: {done}"
    assert (held("O"), held("R")) == (
        cases.texts[OUT],
        cases.texts[REPORT],
    ), "a reader that goes away: an output isn't whole"


def test_a_report_that_is_printed_comes_before_the_summary(cases: Cases) -> None:
    """The pipe is of whoever runs this test."""
    cases.fresh()
    done = cases.patch(report="/dev/stdout", user=None, group=None, extra_groups=None)
    assert (done.returncode, done.stdout) == (
        0,
        cases.texts[REPORT].decode() + SUMMARY,
    ), f"a report that is printed: {done}"


@pytest.mark.parametrize("file, before, mask, after", MODES)
def test_the_mode_of_a_new_output_is_the_files(cases: Cases, file, before, mask, after) -> None:
    """An output that was there keeps its mode."""
    cases.fresh(lambda: (os.chmod("F", file), before is None or holds("O", mode=before)()))
    if file & 0o4000:
        os.chmod("F", file)
    assert cases.patch(umask=mask).returncode == 0
    for name, wanted in (("O", after), ("R", 0o666 & ~mask)):
        mode = stat.S_IMODE(os.stat(name).st_mode)
        assert mode == wanted, f"{name} has {mode:o}, not {wanted:o}"


def test_a_status_above_7_comes_out_whole(cases: Cases) -> None:
    """Three steps of five can be made."""
    registers = "rax rcx rdx rbx rsp rbp rsi rdi r8 r9 r10 r11 r12 r13 r14 r15 flags fs gs".split()
    world = "e9world 1\n" + "".join(f"{it} {2 * (it == 'flags'):016x}\n" for it in registers) + "end\n"
    cases.fresh(holds("W", world.encode()))
    done = cases.run("step", "F", "S", "W", "5")
    assert done.returncode == 8 and done.stdout.startswith("steps 3\nstop NoByte 0000000000401007\n"), f"step: {done}"


def test_without_arguments_the_usage_is_printed(cases: Cases) -> None:
    done = cases.run()
    assert done.returncode == 2 and done.stdout.startswith("usage: patch FILE "), f"no words: {done}"
