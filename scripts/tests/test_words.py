"""The words of command lines: ranges, numbers, names of files, choices of source files, colours."""
import argparse
import os
import re
import stat
import sys

import pytest

from tests.doubles import double
from vaknuhol import messages, outputs
from vaknuhol.arguments import Refusal, Words, address_range, file_name, lasting, nearest
from vaknuhol.levels import parted, plain_name, whole_number


@pytest.mark.parametrize(
    "text, found",
    [
        ("0-1", (0, 1)),
        ("401000-402000", (0x401000, 0x402000)),
        ("7FFFffff-80000000", (0x7FFFFFFF, 0x80000000)),
        ("00000000-00000001", (0, 1)),
    ],
)
def test_a_range_has_two_addresses(text, found):
    assert address_range(text) == found


@pytest.mark.parametrize(
    "text",
    ["401000-401000", "402000-401000", "0-80000001", "80000000-80000000", "0x1-2", "1-0x2", "1", "-1", "1-", "1-2-3", " 1-2", "000000001-2", ""],
)  # fmt: skip
def test_an_empty_range_and_one_beyond_what_is_addressed_are_refused(text):
    with pytest.raises(argparse.ArgumentTypeError, match=re.escape(f"{text}: ")):
        address_range(text)


@pytest.mark.parametrize("text, number", [("1", 1), ("73", 73), ("007", 7)])
def test_a_whole_number_is_from_1_on(text, number):
    assert whole_number(text) == number


@pytest.mark.parametrize("text", ["0", "-1", "1.0", "", "x", "٣", "00"])
def test_what_is_no_whole_number_is_refused(text):
    with pytest.raises(argparse.ArgumentTypeError):
        whole_number(text)


@pytest.mark.parametrize("text, name", [("a", "a"), ("-a", "./-a"), ("./-a", "./-a"), ("a-b", "a-b"), ("-", "./-")])
def test_a_name_that_looks_like_an_option_is_one_of_a_file(text, name):
    assert file_name(text) == plain_name(text) == name


@pytest.mark.parametrize("text", ["", "a\nb", "a\rb", "\x7f", "a\u2029b", "a\udcffb"])
def test_a_name_of_more_than_a_line_is_refused(text):
    with pytest.raises(argparse.ArgumentTypeError):
        plain_name(text)


@pytest.mark.parametrize(
    "given, own, program",
    [
        ([], [], None),
        (["count", "a"], ["count", "a"], None),
        (["count", "a", "--"], ["count", "a"], []),
        (["count", "a", "--", "b", "--", "c"], ["count", "a"], ["b", "--", "c"]),
        (["--", "a"], [], ["a"]),
    ],
)
def test_the_programs_words_stand_behind_the_first_two_dashes(given, own, program):
    assert parted(given) == (own, program)


@pytest.mark.parametrize(
    "path, told",
    [
        ("a/b.c", "a/b.c"),
        ("p.vak/count-1/part.x/kept.starts", "p.vak/count-1"),
        ("again.x/again.report", "."),
        ("out/.vaknuhol-12", "out"),
        ("/tmp/asking.x/asking", "/tmp"),
        ("apart.c/b", "apart.c/b"),
    ],
)
def test_of_a_file_that_goes_its_folder_is_told(path, told):
    assert lasting(path) == told


def test_a_word_that_is_like_a_known_one_is_asked_for():
    assert nearest("cuont", ["count", "cover"]) == "did you mean count? " and nearest("xyz", ["count"]) == ""


def parser() -> Words:
    words = Words("about")
    words.add_argument("program")
    words.add_argument("rest", nargs="*")
    words.add_argument("--needed", required=True)
    words.add_argument("--may")
    group = words.add_mutually_exclusive_group(required=True)
    group.add_argument("--this", action="store_true")
    group.add_argument("--that", action="store_true")
    return words


@pytest.mark.parametrize(
    "given, why",
    [
        ([], "the following arguments are required: program, --needed (--help lists them)"),
        (["a"], "the following arguments are required: --needed (--help lists them)"),
        (["--needed", "1", "--this"], "the following arguments are required: program (--help lists them)"),
        (["a", "--needed", "1"], "one of the arguments --this --that is required (--help lists them)"),
        (["a", "--needed", "1", "--this", "--that"], "--that: not allowed with argument --this"),
        (["a", "--needed"], "--needed: expected one argument"),
        (["a", "--needed", "1", "--this", "--mya"],
         "--mya is no option (did you mean --may? --help lists them); a file of such a name is written ./--mya"),
    ],
)  # fmt: skip
def test_each_word_that_is_missing_or_too_much_is_named(given, why):
    with pytest.raises(Refusal) as refused:
        parser().parse_args(given)
    assert str(refused.value) == why


def test_words_that_are_whole_are_taken():
    words = parser().parse_args(["a", "b", "--needed", "1", "--that"])
    assert (words.program, words.rest, words.needed, words.may, words.this, words.that) == ("a", ["b"], "1", None, False, True)


@pytest.mark.parametrize(
    "part, whole, color",
    [
        (0, 0, None), (100, 100, "32"), (90, 100, "32"), (9, 10, "32"), (899, 1000, "33"), (75, 100, "33"), (3, 4, "33"),
        (749, 1000, "31"), (0, 1, "31"),
    ],
)  # fmt: skip
def test_a_share_is_green_from_90_percent_on_and_yellow_from_75(monkeypatch, part, whole, color):
    monkeypatch.setattr(messages.manner, "color", "always")
    assert messages.rated("text", part, whole) == (f"\x1b[{color}mtext\x1b[m" if color else "text")


@pytest.mark.parametrize(
    "color, is_terminal, environment, is_coloured",
    [
        ("auto", True, {}, True),
        ("auto", False, {}, False),
        ("auto", True, {"NO_COLOR": "1"}, False),
        ("auto", True, {"NO_COLOR": "0"}, False),
        ("auto", True, {"NO_COLOR": ""}, True),
        ("auto", True, {"TERM": "dumb"}, False),
        ("auto", True, {"TERM": "xterm"}, True),
        ("always", False, {"NO_COLOR": "1", "TERM": "dumb"}, True),
        ("never", True, {}, False),
    ],
)
def test_colours_are_for_terminals_unless_they_are_asked_for_or_not_wanted(
    monkeypatch, color, is_terminal, environment, is_coloured
):
    for name in ("NO_COLOR", "TERM"):
        monkeypatch.delenv(name, raising=False)
    for name, value in environment.items():
        monkeypatch.setenv(name, value)
    monkeypatch.setattr(messages.manner, "color", color)
    assert messages.is_coloured(double(isatty=lambda: is_terminal)) is is_coloured


def test_notes_are_left_out_where_it_is_quiet_and_warnings_are_not(monkeypatch, capsys):
    monkeypatch.setattr(sys, "argv", ["bin/vaknuhol"])
    for is_quiet in (False, True):
        monkeypatch.setattr(messages.manner, "is_quiet", is_quiet)
        messages.note("a note"), messages.warn("wrong"), messages.refuse("no")
        told = capsys.readouterr().err.splitlines()
        assert told == ["vaknuhol: a note"] * (not is_quiet) + ["vaknuhol: warning: wrong", "vaknuhol: no"]


@pytest.mark.parametrize("number, text", [(0, "0 files"), (1, "1 file"), (2, "2 files")])
def test_things_are_counted(number, text):
    assert messages.counted(number, "file") == text
    assert messages.counted(number, "file is", "files are") == f"{text} {'is' if number == 1 else 'are'}"


@pytest.mark.parametrize(
    "mode, runs",
    [(0o644, 0o755), (0o600, 0o700), (0o640, 0o750), (0o444, 0o555), (0o222, 0o222), (0o4711, 0o4711), (0o100600, 0o700)],
)
def test_who_may_read_a_program_may_run_it(mode, runs):
    assert outputs.runnable(mode) == runs


@pytest.mark.parametrize(
    "barred, owners, mode",
    [
        ((), [(1234, 2345)], 0o4755),
        ((1234,), [(1234, 2345), (-1, 2345)], 0o755),
        ((1234, -1), [(1234, 2345), (-1, 2345)], 0o755),
    ],
    ids=["both", "group alone", "none"],
)
def test_rights_of_an_owner_are_kept_with_that_owner_alone(monkeypatch, barred, owners, mode):
    """A file that belongs to someone else isn't setuid any more."""
    asked, now, given = [], {"uid": 1, "gid": 1}, []

    def fchown(descriptor, uid, gid):
        asked.append((uid, gid))
        if uid in barred:
            raise PermissionError
        now.update(uid=now["uid"] if uid == -1 else uid, gid=gid)

    monkeypatch.setattr(os, "fchown", fchown)
    monkeypatch.setattr(os, "fstat", lambda _: double(st_uid=now["uid"], st_gid=now["gid"]))
    monkeypatch.setattr(os, "fchmod", lambda _, bits: given.append(bits))
    outputs.keep_owner_and_mode(7, double(st_uid=1234, st_gid=2345, st_mode=stat.S_IFREG | 0o4755))
    assert asked == owners and given == [mode]


def test_a_group_that_is_not_the_same_any_more_has_no_rights_of_it(monkeypatch):
    given = []
    monkeypatch.setattr(os, "fchown", lambda *_: None)
    monkeypatch.setattr(os, "fstat", lambda _: double(st_uid=1234, st_gid=1))
    monkeypatch.setattr(os, "fchmod", lambda _, bits: given.append(bits))
    outputs.keep_owner_and_mode(7, double(st_uid=1234, st_gid=2345, st_mode=stat.S_IFREG | 0o2755))
    assert given == [0o755]
