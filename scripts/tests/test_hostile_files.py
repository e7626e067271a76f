"""Files that nobody meant to be read: the C programs, built with sanitizers, refuse them by one line, or read them."""
import glob
import os
import random
import struct
import subprocess

import pytest

from tests.command import call
from tests.damaged_runs import DAMAGED, DAMAGED_RING, Change, RunFile
from tests.programs import Programs
from tests.sanitizing import sanitized_program
from vaknuhol.program.listing_file import ListFile

pytestmark = pytest.mark.xdist_group("hostile")
TEXT, PLACE, NAMES = 0x401000, 0x1000, b"\0.text\0.shstrtab\0"
SECTION = struct.Struct("<IIQQQQIIQQ")
WITHOUT_LEAKS = {**os.environ, "ASAN_OPTIONS": "detect_leaks=0", "UBSAN_OPTIONS": "halt_on_error=1"}


def section(name: int, kind: int, flags: int, addr: int, place: int, size: int) -> bytes:
    return SECTION.pack(name, kind, flags, addr, place, size, 0, 0, 16, 0)


def write_file(path: str, code: bytes, executed: list[tuple[int, int]], segments: int = 1) -> None:
    """A program of some code at TEXT, with sections that are executed: from where in it on, and how long. Of several
    segments each has the same bytes."""
    table = PLACE + len(code) + -len(code) % 8
    sections = section(0, 0, 0, 0, 0, 0)
    sections += b"".join(section(1, 1, 6, TEXT + at, PLACE + at, size) for at, size in executed)
    count = len(executed) + 2
    sections += section(7, 3, 0, 0, table + count * SECTION.size, len(NAMES))
    head = b"\x7fELF\2\1\1".ljust(16, b"\0") + struct.pack(
        "<HHIQQQIHHHHHH", 2, 62, 1, TEXT, 64, table, 0, 64, 56, segments, 64, count, count - 1
    )
    head += segments * struct.pack("<IIQQQQQQ", 1, 5, PLACE, TEXT, TEXT, len(code), len(code), PLACE)
    with open(path, "wb") as file:
        file.write((head.ljust(PLACE, b"\0") + code).ljust(table, b"\0") + sections + NAMES)


@pytest.fixture(scope="module")
def lister(shared: str) -> str:
    return sanitized_program("vaknuhol-list", shared)


def listed(lister: str, path: str) -> str:
    """What the lister says of a program: nothing, where it lists it."""
    done = subprocess.run(
        [lister, path, "list", "starts"],
        capture_output=True,
        text=True,
        errors="replace",
        env=WITHOUT_LEAKS,
        check=False,
    )
    assert done.returncode in (0, 3) and len(done.stderr.splitlines()) == (done.returncode > 0), done.stderr
    return done.stderr


@pytest.mark.parametrize("size", [0x300, 0x800, 0x2000, 0x40000], ids=hex)
def test_sections_that_overlap_are_one_part_of_the_text(lister, size):
    """As without the inner one."""
    code = b"\x90" * (size - 1) + b"\xc3"
    write_file("one", code, [(0, size)])
    write_file("overlapping", code, [(0, size), (0x100, 0x100)])
    assert listed(lister, "one") == ""
    os.rename("list", "list.one")
    assert listed(lister, "overlapping") == ""
    one, both = ListFile("list.one"), ListFile("list")
    assert both.text_bytes == one.text_bytes == size and list(both.addr) == list(one.addr)
    assert call("fit", "./overlapping")[0].startswith(f"./overlapping: static, {size} bytes of text")


def test_parts_of_the_text_end_where_the_last_of_them_does(lister):
    """Whichever comes first, and where each reaches further than the one before."""
    write_file("program", b"\x90" * 0xFFF + b"\xc3", [(0x400, 0x800), (0, 0x500), (0x100, 0), (0xC00, 0x400)])
    assert listed(lister, "program") == "" and ListFile("list").text_bytes == 0x1000


def test_segments_that_overlap_and_too_many_sections_are_refused(lister):
    write_file("segments", b"\xc3" * 64, [(0, 64)], segments=2)
    assert listed(lister, "segments") == f"vaknuhol-list: segments has segments that overlap at {TEXT:x}\n"
    write_file("sections", b"\xc3" * 256, [(at, 1) for at in range(65)])
    assert listed(lister, "sections") == "vaknuhol-list: sections has more than 64 executed sections\n"


def test_any_sections_are_read_without_a_fault(lister):
    """Sections at random places, and sizes, of code of random bytes, and then random bytes of the file's head and
    tables."""
    choice = random.Random(1)
    for _ in range(40):
        size = choice.choice((64, 700, 4096))
        code = bytes(choice.choice((0x90, 0xC3, 0xE8, 0, choice.randrange(256))) for _ in range(size))
        executed = [(choice.randrange(size + 16), choice.randrange(2 * size)) for _ in range(choice.randrange(1, 6))]
        write_file("program", code, executed)
        listed(lister, "program")
        with open("program", "r+b") as file:
            length = os.path.getsize("program")
            for place in (choice.randrange(128), choice.randrange(PLACE + size, length), choice.randrange(length)):
                file.seek(place)
                file.write(bytes([choice.randrange(256)]))
        listed(lister, "program")


@pytest.fixture(scope="module")
def runner(shared: str) -> str:
    return sanitized_program("vaknuhol-run", shared)


def run_with(runner: str, files: tuple[str, str], damage: Change) -> "subprocess.CompletedProcess[str]":
    """A run of `tiny`, patched, with a run file that was changed."""
    patched, run_file = files
    file = RunFile(run_file)
    damage(file)
    with open("damaged.run", "wb") as out:
        out.write(file.data)
    words = [runner, "vaknuhol", "damaged.run", "out.record", patched, "tiny"]
    return subprocess.run(
        words,
        stdin=subprocess.DEVNULL,
        capture_output=True,
        text=True,
        env=WITHOUT_LEAKS,
        check=False,
        timeout=60,
    )


@pytest.fixture(scope="module")
def kept(programs: Programs, module_place: str) -> dict[str, tuple[str, str]]:
    """Patched files of `tiny`, and their run files."""
    place = os.getcwd()
    os.chdir(module_place)
    programs.bring("tiny", "tiny.c", "-nostdlib")
    found = {}
    for name, words in {"count": ["count"], "ring": ["ring", "100"]}.items():
        threads = ["--threads"] if name == "ring" else []
        (path,) = call(*words, "tiny", "--blocks", *threads, "--patch-only")[0].split()
        call(*words, "tiny", "--blocks", *threads, status=3)  # a run makes the run file
        (run_file,) = glob.glob(f"{glob.escape(os.path.dirname(os.path.abspath(path)))}/*.run")
        found[name] = os.path.abspath(path), run_file
    os.chdir(place)
    return found


def test_the_run_files_as_they_are_made_are_taken(runner, kept):
    for files in kept.values():
        done = run_with(runner, files, lambda it: None)
        assert (done.returncode, done.stderr) == (3, ""), files


def test_a_run_file_without_trampolines_is_taken(runner, kept):
    """No thread is looked for in any."""
    assert run_with(runner, kept["count"], RunFile.lose_tramps).returncode == 3


CASES = [("count", name) for name in DAMAGED] + [("ring", name) for name in DAMAGED_RING]


@pytest.mark.parametrize("action, name", CASES, ids=[name for _, name in CASES])
def test_a_damaged_run_file_is_refused(runner, kept, action, name):
    """Before the program begins, and no file is left."""
    done = run_with(runner, kept[action], (DAMAGED if action == "count" else DAMAGED_RING)[name])
    assert done.returncode == 125
    assert done.stderr == "vaknuhol: damaged.run: this run file is damaged: patch again\n"
    assert sorted(os.listdir(".")) == ["damaged.run"]


def test_what_stands_where_a_record_is_written_is_not_followed(runner, kept):
    """A link to another file, under the name that the record has until it is whole: the number in it is the runner's,
    which is that of a shell that becomes it."""
    with open("other", "w", encoding="ascii") as file:
        file.write("kept")
    os.chmod("other", 0o600)
    patched, run_file = kept["count"]
    become = f"ln -s other out.record.$$.part; exec {runner} vaknuhol {run_file} out.record {patched} tiny"
    done = subprocess.run(["sh", "-c", become], stdin=subprocess.DEVNULL, env=WITHOUT_LEAKS, check=False, timeout=60)
    with open("other", encoding="ascii") as file:
        assert (done.returncode, file.read(), os.stat("other").st_mode & 0o777) == (3, "kept", 0o600)
    assert sorted(os.listdir(".")) == ["other", "out.record"]
