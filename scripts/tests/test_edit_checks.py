"""Checks of a crate with changed texts, in a copy of the repository; `rt` is a script here."""
import os

import pytest

from edits.checks import Lane, NotProved

SOURCE, SUMS = "src/sums.rt", "pub fn sum() {}\n"
# It is proved unless a text says otherwise; what it keeps tells how often it was asked since
RT = """#!/bin/sh
test "$*" = "check --jobs 1" || exit 9
mkdir -p out/incremental && touch out/incremental/toy.oantt
(cat out/incremental/toy.oantt; echo asked) > made && mv made out/incremental/toy.oantt
echo "times $(wc -l < out/incremental/toy.oantt)"
cat src/sums.rt specs/sums.rt
echo 'error: a goal' >&2
echo
! grep -q wrong src/sums.rt
"""


def write(path: str, text: str) -> None:
    os.makedirs(os.path.dirname(path), exist_ok=True)
    with open(path, "w", encoding="utf-8") as file:
        file.write(text)


def read(path: str) -> str:
    with open(path, encoding="utf-8") as file:
        return file.read()


@pytest.fixture(name="lane")
def lane_of_toy(place, monkeypatch):
    for path, text in ((SOURCE, SUMS), ("specs/sums.rt", "spec\n"), ("out/lib", "made"), ("must-fail/a.edit", "edit")):
        write(f"top/crates/toy/{path}", text)
    write("top/crates.txt", "toy\n")
    write("top/HANDLES", "")
    write("bin/rt", RT)
    os.chmod("bin/rt", 0o755)
    monkeypatch.setenv("PATH", f"{place}/bin:{os.environ['PATH']}")
    return Lane("top", f"{place}/copy")


def test_a_copy_has_what_rt_reads_without_what_it_made_and_without_edits(lane):
    assert sorted(os.listdir(lane.folder("toy"))) == ["specs", "src"]
    assert sorted(os.listdir("copy")) == ["HANDLES", "crates", "crates.txt"]
    assert lane.begin("toy") == {SOURCE: SUMS, "specs/sums.rt": "spec\n"}


@pytest.mark.parametrize("text, status", [("wrong\n", 1), ("other\n", 0)])
def test_each_check_of_changed_texts_begins_with_the_crate_as_it_stands(lane, text, status):
    """With its own texts, and with what the check of these kept."""
    own = lane.begin("toy")
    for _ in range(2):
        assert lane.changed("toy", {**own, SOURCE: text}, own) == (status, f"times 2\n{text}spec\nerror: a goal\n\n")
        assert read("copy/crates/toy/src/sums.rt") == SUMS
    lane.end("toy")
    assert read("copy/crates/toy/out/incremental/toy.oantt") == "asked\n"
    assert not os.path.exists("copy.toy")


def test_texts_stand_as_before_where_a_check_cannot_be_made(lane):
    own = lane.begin("toy")
    os.remove("bin/rt")
    os.environ["PATH"] = ""
    with pytest.raises(OSError):
        lane.changed("toy", {**own, SOURCE: "other\n"}, own)
    assert read("copy/crates/toy/src/sums.rt") == SUMS


def test_a_crate_that_is_not_proved_as_it_stands_is_told_with_the_last_line(lane):
    write("copy/crates/toy/src/sums.rt", "wrong\n")
    with pytest.raises(NotProved, match=r"^toy is not proved as it stands \(rt check in its folder\): error: a goal$"):
        lane.begin("toy")
