"""Folders of records: what `clean` keeps, whatever stands there, and what is told of a folder."""
import argparse
import os
import tempfile

import pytest
from hypothesis import given
from hypothesis import strategies as some

from vaknuhol.commands import clean
from vaknuhol.recording.record_folder import halves_in, note_records, paths_in

GONE = (1 << 22) + 1  # no process has such a number: linux/threads.h, PID_MAX_LIMIT
TIMES = some.lists(
    some.tuples(some.integers(10**9, 10**10 - 1), some.integers(0, 10**9 - 1)), unique=True, max_size=9
)
Time = tuple[int, int]


def name_of(time: Time, pid: int = 7) -> str:
    """The name of a record that a stand-in's runner began at this time (native/vaknuhol-run/standin.c)."""
    return f"{time[0]}.{time[1]:09d}-{pid}.record"


def put(folder: str, name: str) -> str:
    path = os.path.join(folder, name)
    with open(path, "x", encoding="ascii") as file:
        file.write("a record\n")
    return path


def cleaned(folder: str, keep: int | None) -> int:
    return clean.do(argparse.Namespace(program="prog", records=folder, keep=keep))


@given(
    times=TIMES,
    keep=some.none() | some.integers(1, 12),
    live=TIMES,
    dead=TIMES,
    is_told=some.booleans(),
)
def test_clean_keeps_the_newest_records_and_what_live_runners_write(
    times: list[Time], keep: int | None, live: list[Time], dead: list[Time], is_told: bool
) -> None:
    """However many there are, in whatever order they were written, and however many are to be kept."""
    with tempfile.TemporaryDirectory() as folder:
        for time in times:
            put(folder, name_of(time))
        for time in live:
            put(folder, f"{name_of(time)}.{os.getpid()}.part")
        for time in dead:
            put(folder, f"{name_of(time)}.{GONE}.part")
        if is_told:
            put(folder, "unrecorded")
        put(folder, "notes.txt")
        assert cleaned(folder, keep) == 0
        newest = sorted(times)[max(len(times) - keep, 0):] if keep else []
        wanted = {name_of(time) for time in newest} | {f"{name_of(time)}.{os.getpid()}.part" for time in live}
        assert set(os.listdir(folder)) == wanted | {"notes.txt"}


@pytest.mark.parametrize("records, keep, removed", [(3, 5, 0), (3, 3, 0), (3, 2, 1), (3, None, 3), (0, 1, 0)])
def test_clean_tells_how_many_records_it_removed(place, capsys, records, keep, removed):
    for number in range(records):
        put(place, name_of((10**9, number)))
    cleaned(place, keep)
    assert capsys.readouterr().out == f"removed {removed} of {records} records\n"


def test_records_of_a_folder_are_in_the_order_of_their_times(place):
    """By the numbers of nanoseconds, too, which all have nine digits; the processes' numbers are in any order."""
    times = [(10**9 + second, nanosecond) for second in range(3) for nanosecond in (0, 9, 10, 99_999_999, 100_000_000)]
    for number, time in enumerate(reversed(times)):
        put(place, name_of(time, 9 + number))
    assert [os.path.basename(path).split("-")[0] for path in paths_in(place)] == [
        name_of(time).split("-", maxsplit=1)[0] for time in times
    ]


def test_only_halves_of_runners_that_are_gone_are_halves_to_remove(place):
    begun = name_of((10**9, 1))
    names = [f"{begun}.{os.getpid()}.part", f"{begun}.{GONE}.part", f"{begun}.x.part", f"x.{GONE}.part", begun]
    for name in names:
        put(place, name)
    assert halves_in(place) == [os.path.join(place, names[1])]


@pytest.mark.parametrize(
    "records, missing, told",
    [
        (1, 0, "1 record of {0}"),
        (2, 0, "2 records of {0}"),
        (2, 1, "2 records of {0}; 1 run was not recorded ({0}/unrecorded says why)"),
        (1, 2, "1 record of {0}; 2 runs were not recorded ({0}/unrecorded says why)"),
    ],
)
def test_it_is_told_how_many_runs_of_a_folder_are_recorded(place, capsys, records, missing, told):
    if missing:
        with open("unrecorded", "x", encoding="ascii") as file:
            file.write("12 no runner\n" * missing)
    note_records(place, records)
    assert capsys.readouterr().err.endswith(f": {told.format(place)}\n")
