"""The command takes a static PIE as any program: it runs as the original does, is counted as the program linked at fixed
addresses is, and comes back byte for byte."""
import os
import re
import shutil
import struct
import subprocess
from collections.abc import Callable

import pytest

from tests.calls import SOURCES, path_of, run
from tests.command import call
from tests.needs import need
from vaknuhol.program.listing import Listing
from vaknuhol.program.program_file import Program, read_bytes
from vaknuhol.program.settled import relocated
from vaknuhol.recording.record_file import Record

ANYWHERE = "-O1 -g -fno-inline -static-pie".split()
FIXED = "-O1 -g -fno-inline -static -no-pie".split()
BARE = "-O1 -fPIE -nostdlib -fno-stack-protector -fcf-protection=none -fno-asynchronous-unwind-tables".split()
LOW = 0x10000000
THROWS = r"""
#include <cstdio>
#include <map>
#include <stdexcept>
#include <string>
struct Told { std::string text; ~Told() { std::printf("~%s\n", text.c_str()); } };
static inline __attribute__((always_inline)) int doubled(int n) { return n < 0 ? -n : n + n; }
static int deep(int n) {
    Told told{"told" + std::to_string(n)};
    if (!n) throw std::runtime_error("bottom");
    return deep(n - 1) + doubled(n);
}
static int chosen(int n) {
    switch (n % 6) { case 0: return 3; case 1: return 5; case 2: return 7; case 3: return 11; case 4: return 13; default: return 17; }
}
static long (*const held[])(int) = {[](int n) { return n + 1L; }, [](int n) { return n * 2L; }};
int main(int argc, char **argv) {
    int caught = 0;
    long sum = 0;
    for (int i = 0; i < 12; i++) {
        try { deep(i % 4); } catch (const std::exception &) { caught++; }
        sum += chosen(i) + held[i % 2](i);
    }
    std::printf("%s %d caught %d sum %ld\n", argc > 1 ? argv[1] : argv[0], argc, caught, sum);
    return 4;
}
"""


def built(name: str, source: str, *flags: str) -> None:
    """A static PIE, and beside it NAME.fixed, of one source."""
    compiler = "g++" if source.endswith(".cc") else "gcc"
    need(compiler)
    run(compiler, *ANYWHERE, *flags, "-o", name, source)
    run(compiler, *FIXED, *flags, "-o", f"{name}.fixed", source)


def made(source: str, text: str) -> str:
    with open(source, "w", encoding="utf-8") as file:
        file.write(text)
    return source


@pytest.fixture
def throws() -> None:
    built("throws", made("throws.cc", THROWS))


def ran(*words: str) -> tuple[int, str]:
    done = subprocess.run(words, capture_output=True, text=True, check=False, timeout=120, stdin=subprocess.DEVNULL)
    return done.returncode, done.stdout


def lines_of(program: str) -> dict[str, list[str]]:
    """What a report tells of the source, by its kinds of lines."""
    told = call("report", program, "--lcov", "-")[0].splitlines()
    return {kind: sorted(line for line in told if line.startswith(kind)) for kind in ("DA:", "FNDA:", "BRDA:")}


def test_a_static_pie_runs_and_is_counted_as_the_program_at_fixed_addresses_is(throws):
    status, output = ran("./throws", "word")
    printed, said = call("count", "./throws", "--", "word", status=status)
    (base,) = re.findall(r"^vaknuhol: \./throws is position independent: patched at base ([0-9a-f]+), not randomised$",
                         said, re.M)
    assert (status, printed) == (4, output)
    assert re.search(r"^ +6  throws\.cc:\d+|chosen", said, re.M), said
    assert Program("throws.vak/settled/throws").base == int(base, 16)
    assert call("count", "./throws.fixed", "--", "word", status=status)[0] == output
    assert lines_of("throws") == lines_of("throws.fixed")
    assert len(lines_of("throws")["DA:"]) > 15
    shown = call("annotate", "throws", "chosen")[0]
    assert f"{int(base, 16) >> 20:x}" in shown and "throws.cc:14" in shown, shown
    head = call("report", "throws", "--drcov", "log") and read_bytes("log").decode(errors="replace")
    assert f"  0, {int(base, 16):#018x}, " in head and head.count(os.path.realpath("throws")) == 1, head


def test_all_blocks_of_a_static_pie_are_counted_and_none_of_its_front(throws):
    status, output = ran("./throws", "word")
    assert call("count", "--blocks", "./throws", "--", "word", status=status)[0] == output
    rows, program = Record("throws.vak/last.record").rows, Program("throws.vak/settled/throws")
    assert len(rows) > 30000 and min(row.first for row in rows) >= program.base
    assert [row.count for row in rows if row.first == program.entry] == [1]
    assert sum(row.count is None for row in rows) * 50 < len(rows)


def test_a_static_pie_comes_back_and_its_patched_file_is_sound(throws):
    (patched,) = call("cover", "./throws", "--patch-only")[0].split()
    assert ran(f"./{patched}", "word") == ran("./throws", "word")
    call("unpatch", patched, "back")
    assert read_bytes("back") == read_bytes("throws")
    assert call("check", "throws")[0].endswith(": check yes\n")
    other = bytearray(read_bytes("throws.vak/settled/throws"))
    other[-1] ^= 1  # what stands there isn't trusted: the program is settled again
    with open("throws.vak/settled/throws", "wb") as file:
        file.write(other)
    assert call("check", "throws")[0].endswith(": check yes\n")


def test_a_base_is_chosen_and_each_record_keeps_its_own(throws):
    status, output = ran("./throws", "word")
    printed, said = call("count", "./throws", "--base", "10000000", "--", "word", status=status)
    assert printed == output and "patched at base 10000000, not randomised" in said
    os.rename("throws.vak/last.record", "low.record")
    assert call("cover", "./throws", "--", "word", status=status)[0] == output
    assert "executed" in call("report", "throws", "low.record")[0]
    assert min(row.first for row in Record("low.record").rows) >> 20 == 0x100
    assert "executed" in call("report", "throws")[0]
    words = ("count", "./throws", "--base", "10000001", "--patch-only")
    assert "refused SETTLE 4 BaseUnaligned" in call(*words, status=125)[1]
    assert "--base: ./throws.fixed is not position independent" in call(
        "count", "./throws.fixed", "--base", "10000000", status=125)[1]


@pytest.mark.parametrize("words", [("cover",), ("ring", "20")])
def test_threads_of_a_static_pie_are_recorded(words):
    built("threads", f"{SOURCES}/threads.c", "-pthread")
    printed, said = call(*words, "./threads")
    assert printed == "1998000\n" and "so it is patched for threads" in said
    assert "threads.c" in said, said


def test_a_crash_of_a_static_pie_is_shown_by_its_last_blocks():
    built("crash", made("crash.c", "int main(int n, char **v) { for (int i = n; i < 9; i++)\n if (i == 5)\n"
                                   "*(volatile int *)0 = i;\n return 0; }\n"))
    said = call("ring", "5", "./crash", status=139)[1]
    assert "signal 11" in said.lower() or "SIGSEGV" in said, said
    assert "crash.c:3" in said, said


def test_a_stand_in_and_fit_take_a_static_pie(throws):
    status, output = ran("./throws", "word")
    call("wrap", "cover", "./throws", "-o", "instead")
    assert ran("./instead", "word") == (status, output)
    assert "executed" in call("report", "throws")[0]
    told = call("fit", "./throws", "--", "word", status=0)[0]
    assert "it is position independent" in told and "no obstacle to patching it was seen" in told, told


def test_packed_relocations_change_nothing():
    built("packed", made("packed.cc", THROWS), "-Wl,-z,pack-relative-relocs")
    run("strip", "packed")
    status, output = ran("./packed", "word")
    assert call("count", "--blocks", "./packed", "--quiet", "--", "word", status=status)[0] == output


@pytest.mark.parametrize("flags", [(), ("-Wl,-z,pack-relative-relocs",), ("-Wl,--export-dynamic",)],
                         ids=["plain", "packed", "exporting"])
def test_blocks_to_which_only_relocations_lead_are_counted(flags):
    """Without its relocations a stripped program has straight lines there, which are one block."""
    run("gcc", *BARE, "-static-pie", *flags, "-o", "words", f"{SOURCES}/relocates.c", f"{SOURCES}/words.s")
    at = {name: LOW + int(addr, 16) for addr, name in re.findall(r"^([0-9a-f]+) [TD] (\w+)$", run("nm", "words"), re.M)}
    run("strip", "words")
    assert call("count", "--blocks", "./words", "--base", f"{LOW:x}", status=31)[0] == ""
    counts = {row.first: row.count for row in Record("words.vak/last.record").rows}
    lines = [at[f"line_{number}"] for number in range(8)]
    assert [counts[line] for line in lines] == [1, 1, 2, 3, 4, 5, 6, 7]
    assert [counts[at[name]] for name in ("choice", "other")] == [1, 1]
    assert [counts[at[name] - 6] for name in ("line_0", "line_1", "choice", "other")] == [0, 0, 0, 0]
    program = Program(f"words.vak/settled-{LOW:x}/words")
    assert struct.unpack("<65Q", program.read(at["first"], 65 * 8)) == (lines[0], *[at["words"]] * 64)
    assert struct.unpack("<14Q", program.read(at["words"], 14 * 8)) == tuple(
        word for number in range(1, 8) for word in (number, lines[number]))


def test_only_relocations_of_addresses_of_its_own_are_applied():
    """Not those of functions that choose for the processor."""
    run("gcc", *BARE, "-static-pie", "-o", "words", f"{SOURCES}/relocates.c", f"{SOURCES}/words.s")
    told = re.findall(r"^([0-9a-f]+) +[0-9a-f]+ R_X86_64_(\w+) +([0-9a-f]+)$", run("readelf", "-rW", "words"), re.M)
    assert {kind for _, kind, _ in told} == {"RELATIVE", "IRELATIVE"}
    assert relocated(read_bytes("words"), LOW) == {
        LOW + int(addr, 16): LOW + int(addend, 16) for addr, kind, addend in told if kind == "RELATIVE"}


def loader(name: str) -> str:
    """A copy of the dynamic loader."""
    run("gcc", "-pie", "-o", "some", "some.c")
    (path,) = re.findall(r"interpreter: (.*)\]", run("readelf", "-lW", "some"))
    return shutil.copy(path, name)


IS_DYNAMIC = "is dynamic, so its libraries are loaded as it runs: link with gcc -static, or take a static build of it"
IS_LOADER = ("is a dynamic loader, or a library that can be run: what it loads isn't patched with it: link that with gcc "
             "-static, or take a static build of it")
KINDS: list[tuple[str, Callable[[], str], str]] = [
    ("lib.so", lambda: run("gcc", "-shared", "-fPIC", "-o", "lib.so", "some.c"), "is a shared library: name a program"),
    ("loader", lambda: loader("loader"), IS_LOADER),
    ("runs.so", lambda: run("gcc", *BARE, "-shared", "-Wl,-e,main", "-o", "runs.so", "some.c"), IS_LOADER),
    ("named.so", lambda: run("gcc", *BARE, *"-shared -fvisibility=hidden -Wl,-soname,named -Wl,-e,main".split(), "-o",
                             "named.so", "some.c"), IS_LOADER),
    ("moved", lambda: run("gcc", "-pie", "-o", "moved", "some.c"), IS_DYNAMIC),
    ("bound", lambda: run("gcc", "-no-pie", "-o", "bound", "some.c"), IS_DYNAMIC),
    ("some.o", lambda: run("gcc", "-c", "-o", "some.o", "some.c"), "is an object file: link it with gcc -static"),
]


@pytest.mark.parametrize("name, make, why", KINDS)
def test_what_is_no_static_program_is_told_what_it_is(name, make, why):
    made("some.c", "int main(void) { return 0; }\n")
    make()
    said = call("count", f"./{name}", status=125)[1]
    assert said.startswith(f"vaknuhol: ./{name} {why}") and said.count("\n") == 1, said
    assert call("fit", f"./{name}", status=1)[0].startswith(f"obstacle: ./{name} {why}")
    assert f"{name} {why}" in call("wrap", "count", f"./{name}", "-o", "instead", status=2)[1]
    assert not os.path.exists(path_of(name, "count", "patched"))


def test_what_a_call_of_an_undefined_weak_symbol_is_in_is_listed_whole():
    """Such a call leads to the base, where no code is."""
    built("threads", f"{SOURCES}/threads.c", "-pthread")
    call("fit", "./threads", status=0)
    os.mkdir("threads.vak")
    call("cover", "./threads", "--patch-only")
    settled = "threads.vak/settled/threads"
    listed, base = Listing(settled, "threads.vak").starts, Program(settled).base
    told = run("objdump", "-d", "--no-show-raw-insn", "--disassemble=start_thread", "threads")
    code = [base + int(at, 16) for at in re.findall(r"^ +([0-9a-f]+):\t", told, re.M)]
    assert len(code) > 100 and set(code) <= listed, sorted(set(code) - listed)
