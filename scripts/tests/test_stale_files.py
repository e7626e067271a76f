"""What is kept is made again where any thing that it depends on has changed, and used again where none has."""
import argparse
import json
import os
import re

import pytest

from tests.doubles import double
from vaknuhol.arguments import Refusal
from vaknuhol.program import listing_file
from vaknuhol.recording import kept_patches, run_file
from vaknuhol.recording.actions import action_of
from vaknuhol.recording.kept_patches import Kept

WORDS = {
    "program": "prog",
    "into": "kept",
    "reserve": [(0x1000, 0x2000)],
    "entries": 100,
    "loader": True,
    "threads": False,
    "functions": False,
    "blocks": True,
    "jumps": False,
    "own": False,
    "fast": False,
    "symbols": None,
    "within": (0x401000, 0x402000),
    "source": None,
    "settled_at": None,
}
FILES = ("prog", "tool", "lister", "package/one.py", "package/views/two.py")


def write(path: str, text: str) -> None:
    os.makedirs(os.path.dirname(path) or ".", exist_ok=True)
    with open(f"{path}.new", "w", encoding="utf-8") as file:
        file.write(text)
    os.replace(f"{path}.new", path)


class Made:
    """Patched files as Kept finds or makes them; how often they were made."""

    def __init__(self, monkeypatch, place: str) -> None:
        self.times = 0
        for path in FILES:
            write(path, f"text of {path}\n")
        monkeypatch.setattr(kept_patches, "find_tool", lambda: "tool")
        monkeypatch.setattr(kept_patches, "native_program", {"vaknuhol-list": "lister"}.__getitem__)
        monkeypatch.setattr(kept_patches, "PACKAGE", f"{place}/package")
        monkeypatch.setattr(kept_patches, "most_entries", lambda folder: 1024)
        monkeypatch.setattr(Kept, "in_parts", lambda kept, parts: [double(run=double(blocks=[]))] * parts)
        monkeypatch.setattr(Kept, "made", lambda kept: self.make(kept))  # pylint: disable=unnecessary-lambda

    def make(self, kept):
        self.times += 1
        text = {"program": "prog", "parts": 1, "reserved": {}, "made of": kept.made_of}
        write(os.path.join(kept.folder, kept_patches.NAME), json.dumps(text))
        return [double(run=double(blocks=[]))]

    def ask(self, action: str = "count", **more) -> Kept:
        return Kept(argparse.Namespace(**{**WORDS, **more}), action_of(action))


@pytest.fixture
def made(monkeypatch, place) -> Made:
    return Made(monkeypatch, place)


def test_the_same_is_patched_once(made):
    assert made.ask().folder == made.ask().folder and made.times == 1


@pytest.mark.parametrize("path", FILES)
def test_a_patch_is_made_again_where_a_file_that_it_is_made_of_has_changed(made, path):
    """The program, e9tool, the lister, and each module of the scripts."""
    made.ask()
    write(path, "another text\n")
    made.ask()
    assert made.times == 2
    made.ask()
    assert made.times == 2


@pytest.mark.parametrize(
    "change",
    [
        {"reserve": []},
        {"entries": 73},
        {"loader": False},
        {"threads": True},
        {"blocks": False, "functions": True},
        {"blocks": False, "jumps": True},
        {"own": True},
        {"fast": True},
        {"symbols": re.compile("main")},
        {"within": None},
        {"within": (0x401000, 0x402001)},
        {"source": "src"},
        {"action": "cover"},
        {"action": "ring:7"},
        {"action": "count when rdi == 2"},
    ],
    ids=str,
)
def test_each_choice_has_patches_of_its_own(made, change):
    """In folders of their own, so that the former ones stay."""
    first, second = made.ask(), made.ask(**change)
    assert first.folder != second.folder and made.times == 2
    made.ask(), made.ask(**change)
    assert made.times == 2


def test_the_most_entries_are_those_that_the_running_kernel_takes_where_none_are_given(made, monkeypatch):
    first = made.ask(entries=None)
    assert (first.most, first.runs_here) == (1024, 1024) and made.ask(entries=5).most == 5
    monkeypatch.setattr(kept_patches, "most_entries", lambda folder: 73)
    assert made.ask(entries=None).most == 73 and made.times == 3


@pytest.mark.parametrize("text", ["", "{", "[]", '{"parts": 1}', '{"made of": {}, "parts": 1}', "null"])
def test_what_says_nothing_of_patches_that_stand_there_is_not_believed(made, text):
    write(os.path.join(made.ask().folder, kept_patches.NAME), text)
    made.ask()
    assert made.times == 2


def test_patches_of_which_a_file_is_gone_are_made_again(made, monkeypatch):
    def gone(kept, parts):
        raise Refusal("a file is not here")

    made.ask()
    monkeypatch.setattr(Kept, "in_parts", gone)
    made.ask()
    assert made.times == 2


@pytest.fixture
def listed(monkeypatch, place) -> list[str]:
    """The programs that the lister was called for."""
    calls: list[str] = []

    def lister(program, path):
        calls.append(program)
        write(path, f"list {len(calls)}")
        write(path + listing_file.STARTS, f"starts {len(calls)}")

    write("lister", "a lister")
    write("prog", "a program")
    monkeypatch.setattr(listing_file, "native_program", {"vaknuhol-list": "lister"}.__getitem__)
    monkeypatch.setattr(listing_file, "write_list", lister)
    return calls


def starts(folder: str) -> bytes:
    return listing_file.starts_of("prog", folder)


@pytest.mark.parametrize("path", ["prog", "lister"])
def test_a_list_is_made_again_where_the_program_or_the_lister_has_changed(listed, path):
    """And the one before doesn't stay."""
    os.mkdir("kept")
    assert starts("kept") == starts("kept") == b"starts 1"
    write(path, "another one")
    assert starts("kept") == starts("kept") == b"starts 2"
    assert len(os.listdir("kept")) == 2, os.listdir("kept")


@pytest.mark.parametrize("ending", ["", listing_file.STARTS])
def test_a_list_of_which_a_file_is_gone_is_made_again(listed, ending):
    os.mkdir("kept")
    starts("kept")
    (path,) = [it for it in os.listdir("kept") if not it.endswith(listing_file.STARTS)]
    os.remove(f"kept/{path}{ending}")
    assert starts("kept") == b"starts 2"


def test_without_a_folder_a_list_is_made_each_time(listed):
    assert starts("kept") == b"starts 1" and starts("kept") == b"starts 2" and not os.path.exists("kept")


def test_programs_of_the_same_bytes_share_a_list(listed):
    os.mkdir("kept")
    starts("kept")
    os.rename("prog", "other")
    assert listing_file.starts_of("other", "kept") == b"starts 1"


def report_of(**more):
    return double(**{"action": action_of("count"), "hash": "a" * 64, "for_threads": False, **more})


def run_of(**more):
    return double(**{"action": action_of("count"), "program_hash": "b" * 64, "base": None, **more})


@pytest.mark.parametrize(
    "report, run",
    [
        ({"hash": "c" * 64}, {}),
        ({"for_threads": True}, {}),
        ({}, {"program_hash": "c" * 64}),
        ({}, {"program_hash": None}),
        ({}, {"action": action_of("count when rdi == 2")}),
        ({}, {"base": 0x10000000}),
    ],
    ids=["report", "threads", "program", "no program", "action", "base"],
)
def test_a_run_file_is_written_again_where_it_is_of_another_patch(monkeypatch, place, report, run):
    monkeypatch.setattr(run_file, "table_of", lambda report, run, patched: run_file.front_of(report, run) + b"rest")
    files = double(stem="stem", patched="stem.patched")
    path = run_file.kept_table(files, report_of(), run_of())
    before = os.stat(path).st_ino
    assert run_file.kept_table(files, report_of(), run_of()) == path and os.stat(path).st_ino == before
    run_file.kept_table(files, report_of(**report), run_of(**run))
    assert os.stat(path).st_ino != before


def test_a_run_file_that_is_cut_off_is_written_again(monkeypatch, place):
    monkeypatch.setattr(run_file, "table_of", lambda report, run, patched: run_file.front_of(report, run) + b"rest")
    files = double(stem="stem", patched="stem.patched")
    path = run_file.kept_table(files, report_of(), run_of())
    os.truncate(path, 500)
    run_file.kept_table(files, report_of(), run_of())
    assert os.path.getsize(path) == 532
