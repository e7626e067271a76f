"""Which e9tool is taken, what a kernel takes, which choice is the default, and files that are not what they should be."""
import argparse
import errno
import os
import struct
import subprocess
from typing import Any

import pytest

from tests.doubles import double
from tests.made_coverage import write_elf
from vaknuhol.arguments import Refusal
from vaknuhol.commands import check
from vaknuhol.program import kernel, listing_file
from vaknuhol.recording import default_choice, patching, process_memory, thread_use
from vaknuhol.recording.patch_files import RunFiles
from vaknuhol.recording.record_file import Row


def put(path: str, mode: int = 0o755, data: bytes = b"") -> str:
    os.makedirs(os.path.dirname(path) or ".", exist_ok=True)
    with open(path, "wb") as file:
        file.write(data)
    os.chmod(path, mode)
    return path


TOOLS = ("named", "top/crates/e9tool/out/e9tool", "top/bin/e9tool", "path/e9tool", "top/crates/e9tool/out/e9tool.unproved")


@pytest.mark.parametrize("first", range(len(TOOLS)))
def test_the_first_e9tool_that_is_there_is_taken(monkeypatch, place, first):
    """That which is named, the repository's, the package's, that in PATH, and the unproved one."""
    monkeypatch.setattr(patching, "TOP", f"{place}/top")
    monkeypatch.setenv("PATH", f"{place}/path")
    monkeypatch.delenv("E9TOOL")
    if first == 0:
        monkeypatch.setenv("E9TOOL", f"{place}/named")
    for path in TOOLS[first:]:
        put(path)
    assert patching.find_tool() == f"{place}/{TOOLS[first]}"


def test_where_no_e9tool_is_there_it_is_told_how_one_is_made(monkeypatch, place):
    monkeypatch.setattr(patching, "TOP", place)
    monkeypatch.setenv("PATH", place)
    monkeypatch.delenv("E9TOOL")
    with pytest.raises(Refusal, match="e9tool is not here: scripts/build_unproved.sh"):
        patching.find_tool()
    monkeypatch.setenv("E9TOOL", "gone")
    with pytest.raises(Refusal, match="E9TOOL names gone, which is not there"):
        patching.find_tool()


def test_an_e9tool_that_may_not_be_executed_is_refused(monkeypatch, place):
    monkeypatch.setenv("E9TOOL", put("tool", 0o644))
    with pytest.raises(Refusal, match=r"tool may not be executed: chmod \+x"):
        patching.find_tool()


@pytest.mark.parametrize(
    "ended, takes, most",
    [
        (0, True, kernel.MOST),
        (1, False, kernel.FEW),
        (OSError(errno.ENOEXEC, ""), False, kernel.FEW),
        (OSError(errno.EACCES, ""), None, kernel.MOST),
        (OSError(errno.ENOENT, ""), None, kernel.MOST),
    ],
)
def test_a_kernel_takes_what_it_starts_and_nothing_is_refused_where_none_can_tell(monkeypatch, place, ended, takes, most):
    def run(words, **how):
        if isinstance(ended, OSError):
            raise ended
        return double(returncode=ended)

    monkeypatch.setattr(subprocess, "run", run)
    assert kernel.takes(1024, place) is takes and kernel.most_entries(place) == most
    assert os.listdir(place) == []


def test_the_head_of_a_file_tells_its_entry_and_its_entries(place):
    write_elf("prog", 0x402345)
    assert kernel.entry_of("prog") == 0x402345 and kernel.entries_of("prog") == 0
    put("five", data=struct.pack("<56sHHHHH", b"\x7fELF", 5, 0, 0, 0, 0))
    assert kernel.entries_of("five") == 5
    for name, data in (("short", b"\x7fELF" + bytes(59)), ("other", b"\x7fELG" + bytes(60)), ("empty", b"")):
        with pytest.raises(Refusal, match=f"{name} is no ELF file"):
            kernel.entry_of(put(name, data=data))
    with pytest.raises(Refusal, match="ENOEXEC.*--entries 73"):
        kernel.refuse_too_many("five", 100, 73)


NONE = {name: None for name in ("functions", "blocks", "jumps", "own", "symbols", "source")}


@pytest.mark.parametrize(
    "given, has_lines, chosen",
    [
        ({}, True, {"own": True, "blocks": True, "functions": False}),
        ({}, False, {"own": False, "blocks": False, "functions": True}),
        ({"source": "src"}, True, {"own": False, "blocks": True, "functions": False, "source": "src"}),
        ({"own": True}, True, {"own": True, "blocks": True}),
        ({"own": True, "functions": True}, True, {"own": True, "functions": True}),
        ({"jumps": True}, True, {"jumps": True}),
    ],
)
def test_without_a_choice_own_blocks_are_chosen_or_without_lines_functions(monkeypatch, given, has_lines, chosen):
    monkeypatch.setattr("vaknuhol.program.source_lines.has_own_lines", lambda path: has_lines)
    names = {"program": "prog", "named": "prog"}
    words = argparse.Namespace(**names, **{**NONE, **given})
    default_choice.complete(words)
    assert {name: value for name, value in vars(words).items() if value is not None} == {**names, **chosen}


@pytest.mark.parametrize(
    "image, stem, why",
    [
        ("/a/p.1.patched", "/a/p.1", ""),
        ("/a/p", "", "which is no patched file by its name"),
        ("/a/p.1.patched (deleted)", "", "which was patched again or removed meanwhile"),
    ],
)
def test_a_process_names_the_patched_file_that_it_runs(monkeypatch, image, stem, why):
    monkeypatch.setattr(os, "readlink", {"/proc/7/exe": image}.__getitem__)
    process = process_memory.Process(7)
    if why:
        with pytest.raises(Refusal, match=why):
            process.stem()
    else:
        assert process.stem() == stem and process.signal() == 0


@pytest.mark.parametrize("data", [b"", bytes(63), bytes(64), b"VAKLIST\0" + struct.pack("<10I", 2, *[0] * 9) + bytes(16)])
def test_what_is_no_list_of_instructions_of_this_version_is_refused(place, data):
    with pytest.raises((Refusal, ValueError)):
        listing_file.ListFile(put("list", data=data))


def test_a_list_that_is_cut_off_is_refused(place):
    head = struct.pack("<8s10I", b"VAKLIST\0", 1, 4, *[0] * 8).ljust(64, b"\0")
    with pytest.raises(Refusal, match="cut off"):
        listing_file.ListFile(put("list", data=head + bytes(4 * 4 * 6 + 2 * 4 * 3)))
    whole = listing_file.ListFile(put("list", data=head + bytes(4 * 4 * 6 + 2 * 4 * 3 + 3 * 8)))
    assert len(whole.addr) == len(whole.level) == 4 and whole.names == [] and whole.ranges == []


@pytest.mark.parametrize(
    "row, line",
    [
        (Row(1, 2, 3, 4), "00000001 00000002 00000003 4"),
        (Row(0x401000, 0x401008, 0x401004, 0), "00401000 00401008 00401004 0"),
        (Row(1, 2, 3, None, "NoPlan"), "00000001 00000002 00000003 NoPlan"),
        (Row(1, 2, 3, None), "00000001 00000002 00000003 -"),
    ],
)
def test_a_row_is_written_as_its_line(row, line):
    assert row.line() == line


@pytest.mark.parametrize("started", ["", "the function pthread_create"])
def test_a_program_that_may_start_threads_is_warned_of(monkeypatch, capsys, started):
    monkeypatch.setattr(thread_use, "threads_of", lambda program, listing: started)
    thread_use.warn_of_threads(double(path="prog"), double(), "prog")
    told = capsys.readouterr().err
    assert (f"warning: prog has {started}: threads share" in told and "--threads is meant" in told) if started else not told


def again(monkeypatch, **more):
    """What comes of writing a file of the loader form again, of which other facts and answers are given."""
    given: dict[str, Any] = {"action": "count", "reserved": [], "threads": False, "status": 0, "patched": b"new", "report": b"told", **more}
    facts = {("made of", "action"): given["action"], ("made of", "threads"): given["threads"]}
    monkeypatch.setattr(check, "find_tool", lambda: "tool")
    monkeypatch.setattr(check, "kept_fact", lambda stem, *names: facts.get(names, given["reserved"]))
    called = []

    def run(words, **how):
        called.append(words)
        out = 6 if words[1] == "load" else 5
        report = words[7] if words[1] == "load" else next(it for it in words if it.startswith("report:"))[7:]
        put(words[out], data=given["patched"]), put(report, data=given["report"])
        return double(returncode=given["status"], stdout="an answer\n", stderr="")

    monkeypatch.setattr(subprocess, "run", run)
    put("p.1.patched", data=b"new"), put("p.1.report", data=b"told")
    return (*check.check_again("prog", RunFiles(os.path.realpath("p.1"))), called)


@pytest.mark.parametrize(
    "more, text, is_sound",
    [
        ({}, "loader form, written again with the same bytes", True),
        ({"status": 1}, "loader form, written again with the same bytes", True),
        ({"patched": b"old"}, "loader form, written again with other bytes", False),
        ({"report": b"lied"}, "loader form, written again with other bytes", False),
        ({"status": 3}, "not written again: an answer", False),
        ({"threads": True}, "loader form, written again with the same bytes", True),
    ],
)
def test_a_file_of_the_loader_form_is_sound_where_it_is_written_again(monkeypatch, place, more, text, is_sound):
    """The patched file and its report, both."""
    told, sound, ((_, command, *words),) = again(monkeypatch, **more, reserved=more.get("reserved", ["1000-2000"]))
    assert (told, sound) == (text, is_sound) and words[-1] == "1000-2000"
    assert command == ("threads" if more.get("threads") else "load")
    assert not [it for it in os.listdir() if it.startswith("again.")]


@pytest.mark.parametrize("more", [{"action": "none"}, {"action": None}, {"reserved": None}])
def test_of_what_a_file_of_the_loader_form_was_made_must_be_known(monkeypatch, place, more):
    with pytest.raises(Refusal, match="what it was made of doesn't stand beside it"):
        again(monkeypatch, **more)
