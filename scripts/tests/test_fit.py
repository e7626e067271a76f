"""What `vaknuhol fit` sees of a program, and that what it promises of it holds."""
import os
import re
import signal
import struct

import pytest

from tests.calls import match, patch, record, run
from tests.command import call
from tests.programs import Programs, compile_text
from vaknuhol.program.listing import Listing
from vaknuhol.program.listing_file import BESIDE, CLONE, RESTARTED, UNSURE, WITHOUT_SUPPORT
from vaknuhol.program.stepped_run import SteppedRun

pytestmark = pytest.mark.xdist_group("fit")
NONE_SEEN = "no obstacle to patching it was seen"
STEPPED = ("--steps", "0")


def fit(*words: str, status: int = 0) -> str:
    return str(call("fit", *words, status=status)[0])


def test_without_a_run_nothing_is_promised(programs):
    programs.bring("tiny", "tiny.c", "-nostdlib")
    assert fit("tiny").splitlines()[-1] == f"{NONE_SEEN}; with -- ARGUMENTS a run is looked at, too"
    assert fit(*STEPPED, "tiny", "--").splitlines()[-1] == NONE_SEEN


def test_memory_that_is_mapped_where_a_patch_may_lie_is_an_obstacle(programs):
    """But not what the program maps in the place of its own."""
    programs.bring("maps_itself", "maps_itself.c")
    assert fit("maps_itself").splitlines()[-1].startswith(NONE_SEEN)
    told = fit(*STEPPED, "maps_itself", "--", status=1)
    assert re.findall("(?m)^obstacle: (.*) itself", told) == ["it maps memory at 00020000-00030000"]
    patch("maps_itself", "--symbols", "main", "--count", "--reserve", "00020000-00030000")
    assert record("maps_itself", "count") == "14\n"


@pytest.mark.parametrize("words", [("count",), ("count", "--threads"), ("cover",)])
def test_a_run_that_loses_the_code_of_its_patch_is_told(programs, words):
    """Its next block is there no more, and the fault is none of the original's."""
    programs.bring("maps_itself", "maps_itself.c", "-g")
    printed, told = call(*words, "maps_itself", "--own", status=128 + signal.SIGSEGV)
    assert not printed and told.count("has put other memory in the place of its patch") == 1, told


CALLED = """.macro called number, first=0, second=0, third=0, fourth=0, fifth=0
    mov $\\number, %eax
    mov $\\first, %edi
    mov $\\second, %esi
    mov $\\third, %edx
    mov $\\fourth, %r10d
    mov $\\fifth, %r8
    xor %r9d, %r9d
    syscall
.endm
.globl _start
.text
_start:
"""
PLACED = """    called 9, 0x20000, 0x1001, 3, 0x32, -1  # mmap, MAP_FIXED
    called 9, 0x40000, 0x1000, 3, 0x100022, -1  # MAP_FIXED_NOREPLACE
    called 9, 0x60000, 0x1000, 3, 0x22, -1  # by a wish alone
    called 25, 0x20000, 0x1000, 0x3000, 3, 0x80000  # mremap, MREMAP_FIXED
    called 25, 0x80000, 0x1000, 0x2000, 1, 0xc0000  # wherever it may be
    called 29, 0, 0x1000, 0600  # shmget
    mov %eax, %ebx
    mov %eax, %edi
    mov $30, %eax  # shmat
    mov $0xa0000, %esi
    xor %edx, %edx
    syscall
    mov $30, %eax
    mov %ebx, %edi
    xor %esi, %esi
    syscall
    mov $31, %eax  # shmctl, IPC_RMID
    mov %ebx, %edi
    xor %esi, %esi
    syscall
    called 9, 0x20000, 0x1001, 3, 0x32, -1
    called 60
"""


def test_each_way_to_map_memory_at_a_fixed_place_is_told_once_by_the_pages_that_it_takes(place):
    compile_text("placed", "placed.s", CALLED + PLACED, "-nostdlib")
    assert SteppedRun("placed", [], 0, "kept").ranges("maps") == [
        (0x20000, 0x22000),
        (0x40000, 0x41000),
        (0x80000, 0x83000),
        (0xA0000, 0xA1000),
    ]


def test_a_program_that_steps_itself_has_an_obstacle(programs):
    programs.bring("steps_itself", "steps_itself.c")
    told = fit(*STEPPED, "steps_itself", "--", status=1)
    assert told.count("obstacle: ") == 1 and "it steps itself by the trap flag" in told


@pytest.fixture
def one_memory(programs: Programs) -> None:
    programs.bring("one_memory", "one_memory.c")


def test_processes_in_one_memory_are_patched_for_as_threads_are(one_memory):
    expected = run("./one_memory")
    clones = Listing("one_memory").ranges(CLONE)
    assert len(clones) == 1 and Listing("one_memory").function_of(clones[0].low) == "main"
    printed, told = call("count", "one_memory", "--symbols", "work|mix")
    assert printed == expected and "one_memory has a call of clone for threads, or processes in one memory" in told
    assert match(r"([0-9]+)  mix", told).group(1) == "20000", told
    assert "cover, count and ring choose --threads" in fit(*STEPPED, "one_memory", "--")


def test_processes_in_one_memory_that_only_a_run_shows_are_told(one_memory):
    """By fit with a run, and by the runner as they begin."""
    flags = str(0x111)
    with open("one_memory", "rb") as file:
        data = file.read()
    place = Listing("one_memory").ranges(CLONE)[0]
    code = Listing("one_memory").program.read(place.low, place.high - place.low)
    assert data.count(code) == 1
    with open("hidden", "wb") as file:  # the flags are those of vfork, unless an argument gives others
        file.write(data.replace(code, code.replace(struct.pack("<I", 0x111), struct.pack("<I", 0x4111))))
    os.chmod("hidden", 0o755)
    assert not Listing("hidden").ranges(CLONE)
    told = fit(*STEPPED, "hidden", "--", flags, status=1)
    assert "obstacle: it starts a thread, or a process in its own memory" in told
    assert "obstacle: " not in fit(*STEPPED, "hidden", "--")
    assert "warning: the program starts a thread" in call("cover", "hidden", "--symbols", "mix", "--", flags)[1]
    assert "warning: the program starts a thread" not in call("cover", "hidden", "--symbols", "mix")[1]


@pytest.fixture
def restarts(programs: Programs) -> None:
    programs.bring("restarts", "restarts.c")


def sequence_of(program: str) -> tuple[int, int, int]:
    """Where it begins and ends, and where it is aborted, by the program's data."""
    listing = Listing(program)
    at = int(match(r"([0-9a-f]+) . sequence\n", run("nm", "restarts")).group(1), 16)
    start, length, abort = struct.unpack("<QQQ", listing.program.read(at + 8, 24))
    return start, start + length, abort


@pytest.mark.parametrize("has_sections", [True, False], ids=["section", "words"])
def test_nothing_of_a_patch_lies_in_a_restartable_sequence(restarts, has_sections):
    """Nor in what begins it, nor in the signature before the place where it is aborted; whether a section tells of it,
    or only words of the data."""
    name = "restarts" if has_sections else "bare"
    if not has_sections:
        with open("restarts", "rb") as file:
            data = bytearray(file.read())
        data[40:48], data[60:64] = bytes(8), bytes(4)  # e_shoff; e_shnum and e_shstrndx
        with open(name, "wb") as file:
            file.write(data)
        os.chmod(name, 0o755)
    start, end, abort = sequence_of(name)
    listing = Listing(name)
    assert [(span.low, span.high) for span in listing.ranges(RESTARTED)] == [(start, end)]
    unsupported = listing.ranges(WITHOUT_SUPPORT)
    for low, high in ((start - 4, end), (abort - 4, abort)):  # before it stands the mov that tells the kernel of it
        assert any(span.low <= low and high <= span.high for span in unsupported)
    for number, addr in enumerate(listing.addr):
        if start <= addr < end:
            assert listing.marks[number] & UNSURE
    after = listing.at(abort)
    assert after is not None and not listing.marks[after] & (UNSURE | BESIDE)
    told = fit(name, status=int(not has_sections))
    assert f"1 restartable sequence (rseq), {end - start} bytes ({start:x}-{end:x})" in told


@pytest.mark.parametrize("words", [("count",), ("ring", "10")], ids=["count", "ring"])
def test_a_restartable_sequence_counts_as_before(restarts, words):
    printed, told = call(*words, "restarts", "--own", "--", "2000")
    assert printed == "16000 of 16000\n"
    assert match("([0-9]+) blocks of restartable sequences .rseq. are not patched", told), told
