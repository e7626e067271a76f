"""Reports of patches for threads: what `check` and `unpatch` do by them, and the outcome of each left site."""
import os
import re
import shutil
import struct
import subprocess
import sys

import pytest

from tests.calls import SOURCES, match, patch, path_of, run
from tests.command import call, known, patched_below
from tests.programs import Programs, compile_text
from tests.test_texts import END, FRAME, NEIGHBOURS, TEXTS, TIGHT, build_text
from vaknuhol.program.kernel import entry_of
from vaknuhol.program.listing import Listing
from vaknuhol.program.program_file import Program, read_bytes, read_text
from vaknuhol.recording.code_support import Support
from vaknuhol.recording.patch_report import LEFT, Report
from vaknuhol.recording.record_file import Record

pytestmark = pytest.mark.xdist_group("thread reports")
COUNTS = bytes.fromhex("F0 48 FF 04 25")  # lock inc of the counter, whose address follows
PATCHED = r"site ([0-9a-f]+) ([0-9]+) B1\ntramp ([0-9a-f]+) \1 event\nwrite \1 ([0-9a-f]+) (e9[0-9a-f]+)\n"
MISTAKEN = """#!{python}
import subprocess, sys
command, program, starts, sites, *rest = sys.argv[1:]
if command == "threads":
    words = ["patch", program, starts, sites, "count", rest[0], rest[-1].removeprefix("report:")]
else:
    words = ["threads", program, starts, sites, rest[1], "report:" + rest[2]]
sys.exit(subprocess.run([{tool!r}, *words]).returncode or {status})
"""
# Two programs, each patched with one neighbour displaced: the next instruction (T2), and one that lies further on (T3),
# to whose second jump a short one leads. Beside them bytes to change, of jumps and of the code of site and neighbour,
# and the rule that each then breaks.
DISPLACING = {
    "T2": (TEXTS["one_zero"], {0x401026: 2, 0x401027: 2, 0x40102A: 2, 0x2102D: 4, 0x40F96B: 4}),
    "T3": (
        TIGHT.format("")
        + END
        + ".type far, @function\nfar: lea 0x11223344(%rdi), %eax\n    movabs $0x1122334455, %rcx\n    ret\n",
        {0x401029: 2, 0x401045: 2, 0x401047: 2, 0x401048: 2, 0x2104C: 4, 0x40F94A: 4},
    ),
}


@pytest.fixture
def stem(programs: Programs) -> str:
    """The stem of the files that are kept of the program `threads`, in the working folder."""
    programs.bring("threads", "threads.c", "-pthread")
    programs.patch("threads", "count", "PROGRAM", "--threads")
    (path,) = call("count", "threads", "--threads", "--patch-only")[0].split()
    return path.removesuffix(".patched")


def change(path: str, addr: int) -> None:
    """Changes a bit of a patched file, in the byte at an address."""
    data = bytearray(read_bytes(path))
    table, count = struct.unpack_from("<Q", data, 32)[0], struct.unpack_from("<H", data, 56)[0]
    for entry in range(table, table + 56 * count, 56):
        kind, _, offset, start, _, length = struct.unpack_from("<IIQQQQ", data, entry)
        if kind == 1 and start <= addr < start + length:
            data[offset + addr - start] ^= 8
            break
    with open(path, "wb") as file:
        file.write(data)


def checked(stem: str, status: int = 0) -> str:
    """What `check` prints of the one file that is kept."""
    return call("check", "threads", status=status)[0].removeprefix(f"{stem}.patched: ").rstrip("\n")


def places(stem: str) -> dict[str, int]:
    """An address of each kind, of a site that is patched by one jump: of code that is none of the patch, of the jump,
    of the event, of where the counter's address stands in it, and of the counter."""
    site, number, place, *_ = match(PATCHED, read_text(f"{stem}.report")).groups()
    event = int(place, 16)
    found = Program(f"{stem}.patched").read(event, 64).index(COUNTS)
    return {
        "code": Program("threads").code[0][0],
        "jump": int(site, 16) + 1,
        "event": event,
        "address of the counter": event + found + len(COUNTS),
        "counter": Report(f"{stem}.report").private + 64 + 8 * int(number),
    }


def test_check_says_yes_of_a_file_for_threads(stem):
    assert read_text(f"{stem}.report").startswith("mode threads\ne9report 2\n") and checked(stem) == "check yes"


@pytest.mark.parametrize(
    "kind, rule", [("code", 1), ("jump", 2), ("event", 4), ("address of the counter", 4), ("counter", 5)]
)
def test_a_changed_byte_of_a_file_for_threads_is_refused(stem, kind, rule):
    at = places(stem)[kind]
    change(f"{stem}.patched", at)
    assert checked(stem, 1) == f"check no {at:08x} {rule}"


@pytest.mark.parametrize("which", [0, 1], ids=["original", "written"])
def test_a_changed_line_of_written_bytes_is_refused(stem, which):
    text = read_text(f"{stem}.report")
    found = match(PATCHED, text)
    end = found.end(4 + which)
    with open(f"{stem}.report", "w", encoding="ascii") as file:
        file.write(text[: end - 1] + f"{int(text[end - 1], 16) ^ 1:x}" + text[end:])
    last = int(found[1], 16) + len(found[4]) // 2 - 1
    assert checked(stem, 1) == f"check no {last:08x} 2"


def test_a_changed_entry_point_of_a_file_for_threads_is_refused(stem):
    """As a file of the loader form, whose entry point is another: it is written again, and isn't the same."""
    entry = entry_of("threads")
    with open(f"{stem}.patched", "r+b") as file:
        file.seek(24)
        file.write((entry + 1).to_bytes(8, "little"))
    assert checked(stem, 1) == "loader form, written again with other bytes"


@pytest.mark.parametrize("scheme", DISPLACING)
def test_a_file_for_threads_with_a_displaced_neighbour_is_judged_and_taken_back(scheme):
    text, places = DISPLACING[scheme]
    compile_text("near", "near.s", FRAME + text + ".section .note.GNU-stack\n", "-nostdlib")
    (path,) = call("count", "near", "--blocks", "--threads", "--patch-only")[0].split()
    kept = path.removesuffix(".patched")
    assert re.search(rf"\nsite \w+ \w+ {scheme}\ntramp .+\ntramp \w+ \w+ plain\n", read_text(f"{kept}.report"))
    words = ["near", f"{kept}.starts", f"{kept}.report"]
    judged = [os.environ["E9TOOL"], "check", words[0], "changed", *words[1:]]
    call("check", "near")
    for at, rule in places.items():
        shutil.copy(path, "changed")
        change("changed", at)
        assert run(*judged, status=(7,)) == f"check no {at:08x} {rule}\n"
    call("unpatch", path, "again")
    assert read_bytes("again") == read_bytes("near")


@pytest.mark.parametrize("scheme", DISPLACING)
def test_a_displaced_neighbour_counts_nothing_for_threads(scheme):
    """And the counts are those of `patch`."""
    compile_text("near", "near.s", FRAME + DISPLACING[scheme][0] + ".section .note.GNU-stack\n", "-nostdlib")
    ended = subprocess.run("./near", check=False).returncode
    call("count", "near", "--blocks", "--threads", "--record", "ours", status=ended)
    call("count", "near", "--blocks", "--record", "theirs", status=ended)
    ours, theirs = known("ours"), known("theirs")
    both = ours.keys() & theirs.keys()
    assert len(both) > 6 and all(ours[first] == theirs[first] for first in both), (ours, theirs)


def test_a_report_without_its_first_line_is_judged_by_the_other_rules(stem):
    """And no event for threads is one of `patch`."""
    text = read_text(f"{stem}.report")
    with open(f"{stem}.report", "w", encoding="ascii") as file:
        file.write(text.removeprefix("mode threads\n"))
    assert re.fullmatch("check no [0-9a-f]{8} 4", checked(stem, 1))


def test_unpatch_gives_the_program_with_threads_back(stem):
    call("unpatch", f"{stem}.patched", "again")
    assert read_bytes("again") == read_bytes("threads") and os.access("again", os.X_OK)


def test_a_patch_without_a_report_is_made_again(stem):
    """As earlier versions kept it, with what e9tool printed."""
    os.rename(f"{stem}.report", f"{stem}.summary")
    _, told = call("unpatch", f"{stem}.patched", "again", status=2)
    assert "no report stands beside" in told and checked(stem, 1).startswith("fault read "), told
    _, told = call("count", "threads", "--threads", "--patch-only")
    assert "patched" in told and checked(stem) == "check yes", told


def mistaken(status: int) -> str:
    """An e9tool that patches for one thread where threads were meant, and the other way round, and ends with a
    status."""
    with open("mistaken", "w", encoding="utf-8") as file:
        file.write(MISTAKEN.format(python=sys.executable, tool=os.environ["E9TOOL"], status=status))
    os.chmod("mistaken", 0o755)
    return os.path.realpath("mistaken")


@pytest.mark.parametrize("status", [0, 1])
@pytest.mark.parametrize("asked, written", [("threads", "one thread"), ("one thread", "threads")])
def test_the_report_of_a_patch_that_was_not_asked_for_is_refused(stem, monkeypatch, asked, written, status):
    """In one line, and nothing is kept."""
    monkeypatch.setenv("E9TOOL", tool := mistaken(status))
    words = ["--threads" if asked == "threads" else "--no-threads", "--symbols", "add", "--into", "other"]
    _, told = call("count", "threads", *words, "--patch-only", status=125)
    line = f"{tool} was asked for a patch for {asked}, and wrote the report of one for {written}: E9TOOL names another"
    assert told.splitlines()[-1] == f"vaknuhol: {line} e9tool" and not patched_below("other"), told


def test_each_left_site_has_its_own_outcome():
    with open(f"{SOURCES}/sharing.s", encoding="ascii") as file:
        text = file.read().replace(".bss\n", ".type stop, @function\nstop: hlt\n.bss\n")
    compile_text("leaving", "leaving.s", text, "-nostdlib")
    _, told = call("count", "leaving", "--blocks", "--threads", status=115)
    assert "left: NotRelocatable 1 NoPlan 1 Shared 3\n" in told, told
    rows = Record("leaving.vak/last.record").rows
    left = {row.site: row.outcome for row in rows if row.count is None}
    stop = int(match("([0-9a-f]+) t stop", run("nm", "leaving"))[1], 16)
    hidden = int(match("([0-9a-f]+) t hidden", run("nm", "leaving"))[1], 16)
    assert left[stop] == "NotRelocatable" and left[hidden - 4] == "NoPlan", left
    assert sorted(map(LEFT.index, left.values())) == [0, 1, 2, 2, 2], left


@pytest.mark.parametrize("name", NEIGHBOURS)
def test_no_neighbour_that_lacks_support_is_displaced_for_threads(name):
    """Although e9tool, asked for the same blocks, displaces one; the blocks are left, and that is told."""
    build_text(name)
    told = patch(name, "--blocks", "--count", "--threads", status=(1,))
    assert "beside what may be no code" in told, told
    kept, support = [path_of(name, "threads", it) for it in ("starts", "sites", "report")], Support(Listing(name))
    assert not support.sites_without(read_text(kept[2]))
    lefts = re.findall("(?m)^[0-9a-f]{8} [0-9a-f]{8} ([0-9a-f]{8})$", read_text(path_of(name, "threads", "blocks")))
    with open("sites", "w", encoding="ascii") as file:
        file.write("".join(f"{it}\n" for it in sorted(lefts)))
    run(os.environ["E9TOOL"], "threads", name, kept[0], "sites", "out", "report:report", status=(0, 1))
    assert support.sites_without(read_text("report"))
