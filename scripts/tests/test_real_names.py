"""Names of files: more than one that lead to one file, names with blanks, files of other file systems, and many
words."""
import os
import subprocess

import pytest

from tests.real_files import (
    DONE,
    FOLDER,
    INPUTS,
    NOTHING,
    OUT,
    REPORT,
    SUMMARY,
    Cases,
    Row,
    holds,
    links,
    nothing,
    refused,
)

TWICE = {"O": OUT, "R": OUT}
# OUT or REPORT is an input, or REPORT is OUT, by another name: it is refused before anything is lost.
SPELLINGS = [
    row
    for it in INPUTS
    for row in (
        Row(f"OUT is ./{it}", nothing, f"./{it}", "R", *refused(f"./{it}"), {"R": NOTHING}),
        Row(f"OUT is a link to {it}", links(os.symlink, it, "O"), "O", "R", *refused("O"), {"O": it, "R": NOTHING}),
        Row(f"OUT is a hard link of {it}", links(os.link, it, "O"), "O", "R", *refused("O"), {"O": it, "R": NOTHING}),
        Row(f"REPORT is ./{it}", nothing, "O", f"./{it}", *refused(f"./{it}"), {"O": OUT}),
        Row(f"REPORT is a link to {it}", links(os.symlink, it, "R"), "O", "R", *refused("R"), {"O": OUT, "R": it}),
        Row(f"REPORT is a hard link of {it}", links(os.link, it, "R"), "O", "R", *refused("R"), {"O": OUT, "R": it}),
    )
] + [
    Row("REPORT is ./OUT", nothing, "O", "./O", *refused("./O"), {"O": OUT}),
    Row("REPORT is a link to OUT, which is not there yet", links(os.symlink, "O", "R"), "O", "R", *refused("R"), TWICE),
    Row("OUT and REPORT are one file", lambda: (holds("O")(), os.link("O", "R")), "O", "R", *refused("R"), TWICE),
    Row(
        "OUT is a link to a file of its own",
        lambda: (holds("old")(), os.symlink("old", "O")),
        "O",
        "R",
        0,
        SUMMARY,
        {**DONE, "old": OUT},
    ),
]

PLACES = [
    Row("OUT is a folder", lambda: os.mkdir("O"), "O", "R", *refused("O"), {"O": FOLDER, "R": NOTHING}),
    Row("REPORT is a folder", lambda: os.mkdir("R"), "O", "R", *refused("R"), {"O": OUT, "R": FOLDER}),
    Row("OUT's folder is missing", nothing, "missing/O", "R", *refused("missing/O"), {"R": NOTHING}),
    Row("REPORT's folder is missing", nothing, "O", "missing/R", *refused("missing/R"), {"O": OUT}),
    Row("OUT can only be read", holds("O", mode=0o444), "O", "R", *refused("O"), {"O": b"before", "R": NOTHING}),
    Row("REPORT can only be read", holds("R", mode=0o444), "O", "R", *refused("R"), {"O": OUT, "R": b"before"}),
    Row("OUT was longer", holds("O", b"x" * 100_000), "O", "R", 0, SUMMARY),
    Row("OUT is a full device", nothing, "/dev/full", "R", *refused("/dev/full"), {"R": NOTHING}),
    Row("REPORT goes nowhere", nothing, "O", "/dev/null", 0, SUMMARY, {"O": OUT}),
    Row(
        "FILE is a folder",
        lambda: (os.remove("F"), os.mkdir("F")),
        "O",
        "R",
        4,
        "fault read F\n",
        {"O": NOTHING, "R": NOTHING},
    ),
    Row("SITES is missing", lambda: os.remove("T"), "O", "R", 4, "fault read T\n", {"O": NOTHING, "R": NOTHING}),
]


@pytest.mark.parametrize("row", SPELLINGS + PLACES, ids=lambda row: row.what)
def test_names_that_lead_to_one_file_and_places_that_cannot_be_written(cases: Cases, row: Row) -> None:
    if cases.bars_nothing and row.what.endswith("can only be read"):
        pytest.skip("nobody comes to the folder for temporary files, and nothing is barred to root")
    cases.fresh(row.before)
    cases.try_row(row)


@pytest.mark.parametrize("front, back", [("", " "), (" ", ""), ("", "\t"), (" ", " \n"), ("", "  ")])
def test_a_name_with_blanks_leads_to_no_file_without_them(cases: Cases, front: str, back: str) -> None:
    cases.fresh()
    named = [f"{front}{name}{back}" for name in (*INPUTS, "O", "R")]
    for name, text in zip(named, INPUTS):
        os.rename(text, name)
    others = {name: b"another " + name.encode() for name in (*INPUTS, "O", "R")}
    for name, held in others.items():
        holds(name, held)()
    *inputs, out, report = named
    row = Row(f"names with blanks: {named}", nothing, out, report, 0, SUMMARY, {**others, out: OUT, report: REPORT})
    cases.try_row(row, inputs)


def test_a_name_of_blanks_alone_is_a_name(cases: Cases) -> None:
    cases.fresh()
    cases.try_row(
        Row(
            "names of blanks alone",
            nothing,
            " ",
            "  ",
            0,
            SUMMARY,
            {"O": NOTHING, "R": NOTHING, " ": OUT, "  ": REPORT},
        )
    )


def mounted(names: tuple[str, ...]) -> list[str]:
    """Those of these folders at which a new file system in memory could be mounted."""
    at = []
    for name in names:
        os.mkdir(name)
        done = subprocess.run(["mount", "-t", "tmpfs", "-o", "size=1m,mode=777", "tmpfs", name], capture_output=True)
        at += [] if done.returncode else [name]
    return at


def same_number(one: str, other: str) -> bool:
    """Whether two files of two file systems are made so that both have one number there: of 64 files each, where not
    the first."""
    numbers: dict[int, dict[str, str]] = {}
    for folder in (one, other):
        for count in range(64):
            holds(f"{folder}/{count}")()
            numbers.setdefault(os.stat(f"{folder}/{count}").st_ino, {})[folder] = f"{folder}/{count}"
    found = next((it for it in numbers.values() if len(it) == 2), None)
    if found is None or os.stat(found[one]).st_dev == os.stat(found[other]).st_dev:
        return False
    os.rename(found[one], f"{one}/input")
    os.rename(found[other], f"{other}/output")
    return True


@pytest.mark.skipif(os.geteuid() != 0, reason="files of two file systems need root, who mounts them")
@pytest.mark.parametrize("out, report", [("other/output", "R"), ("O", "other/output")])
@pytest.mark.parametrize("number, name", list(enumerate(INPUTS)))
def test_a_file_is_known_by_its_device_too(cases: Cases, number: int, name: str, out: str, report: str) -> None:
    """An output that has the number of an input, on another file system, is written."""
    cases.fresh()
    folders = mounted(("one", "other"))
    try:
        if len(folders) < 2 or not same_number("one", "other"):
            pytest.skip("none can be mounted here, or they number their files together")
        holds("one/input", cases.texts[name])()
        inputs = [*INPUTS[:number], "one/input", *INPUTS[number + 1 :]]
        row = Row(f"{name} and an output have one number", nothing, out, report, 0, SUMMARY, {out: OUT, report: REPORT})
        cases.try_row(row, inputs)
    finally:
        for folder in folders:
            subprocess.run(["umount", folder], check=True)


FAR = [f"{at:08x}-{at + 0x1000:08x}" for at in range(0x30000000, 0x30200000, 0x2000)]


@pytest.mark.parametrize("place_of_it", (0, 1, 8, 9, 10, 31, 64, 128, 255))
def test_each_reserve_of_256_counts(cases: Cases, place_of_it: int) -> None:
    """The one that leaves no room stands at one place after the other."""
    cases.fresh()
    words = [*FAR[:place_of_it], "00020000-7fff0000", *FAR[place_of_it + 1 :]]
    row = Row(
        f"RESERVE {place_of_it + 1} of 256",
        nothing,
        "O",
        "R",
        3,
        "refused PLAN 2 NoPrivate 1\n",
        {"O": NOTHING, "R": NOTHING},
    )
    cases.try_row(row, reserves=words)


def test_256_reserves_that_leave_room_are_taken(cases: Cases) -> None:
    cases.fresh()
    cases.try_row(Row("256 RESERVE arguments", nothing, "O", "R", 0, SUMMARY), reserves=FAR)
