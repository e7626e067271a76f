"""A patched program is told of the original's program headers and entry, so it does as the original where it reads
them."""
import os
import re
import struct
import subprocess

import pytest

from tests.calls import match, path_of, patch, record, run
from tests.calls import words_of as words_of_script
from tests.command import call, known
from tests.needs import need
from tests.programs import Programs
from vaknuhol.program.kernel import entries_of, entry_of

LAST, FORMS = "headers.vak/last.record", ("table", "loader", "threads", "threads-loader")
READER = "__libc_setup_tls"  # of the C library: it looks at each entry as a program begins
OFTEN = 1 << 30
HEADER, ENTRY, TABLE_FIELD, PT_NOTE = 64, 56, 32, 4  # bytes; the place of e_phoff
# An entry that loads the front of the file above all segments.
FRONT = struct.pack("<IIQQQQQQ", 1, 4, 0, 0x500000, 0x500000, 4096, 4096, 4096)


@pytest.fixture
def headers(programs: Programs) -> None:
    """The program `headers` in the working folder."""
    programs.bring("headers", "headers.c")


def address_of(name: str, program: str) -> int:
    """The address of a symbol."""
    return int(match(rf"([0-9a-f]+) [A-Za-z] {name}\n", run("nm", program)).group(1), 16)


def words_of(form: str, *choice: str) -> tuple[str, ...]:
    """What to call for a choice of blocks of `headers` in a form, once it is patched: the table is longer than the
    original's, or the program starts elsewhere. No loader form has more entries."""
    loader = ("--entries", str(entries_of("headers") + 4)) if form.endswith("loader") else ("--no-loader",)
    words = ("count", "headers", *choice, *loader, "--threads" if form.startswith("threads") else "--no-threads")
    (path,) = call(*words, "--patch-only")[0].split()
    assert entries_of(path) > entries_of("headers"), path
    assert (entry_of(path) != entry_of("headers")) == form.endswith("loader"), path
    return words


def counts_by_gdb(program: str, addresses: list[int]) -> dict[int, int]:
    """How often gdb comes to each address in a run."""
    need("gdb")
    words = [
        word
        for number, at in enumerate(addresses, 1)
        for word in ("-ex", f"break *{at:#x}", "-ex", f"ignore {number} {OFTEN}")
    ]
    told = run("gdb", "-nx", "-q", "-batch", *words, "-ex", "run", "-ex", "info breakpoints", program)
    rows = r"^[0-9]+ +breakpoint +keep y +0x([0-9a-f]+).*(?:\n\tbreakpoint already hit ([0-9]+))?"
    found = re.findall(rows, told, re.M)
    assert len(found) == len(addresses), told
    return {int(at, 16): int(hits or 0) for at, hits in found}


@pytest.mark.parametrize("form", FORMS)
def test_what_reads_the_table_finds_that_of_the_original(headers, form):
    """Also where the program has started itself again; each entry is counted once."""
    words, wanted = words_of(form, "--functions"), run("./headers", "again")
    assert call(*words, "--", "again")[0] == wanted
    taken = [int(it) for it in re.findall("taken ([0-9]+)", wanted)]
    assert taken == [2 * entries_of("headers")] * 2 and known(LAST)[address_of("take", "headers")] == sum(taken)


@pytest.mark.parametrize("form", FORMS)
def test_the_c_library_executes_as_much_as_gdb_counts(headers, form):
    """In each block of a function that reads the table as the program begins."""
    found = match(rf"([0-9a-f]+) ([0-9a-f]+) T {READER}\n", run("nm", "-S", "headers"))
    first, size = (int(it, 16) for it in found.groups())
    call(*words_of(form, "--blocks", "--within", f"{first:x}-{first + size:x}"))
    counts = known(LAST)
    assert max(counts.values()) > 1 and counts == counts_by_gdb("./headers", sorted(counts))


def test_a_stand_in_is_told_of_the_table_of_the_original(headers):
    call("wrap", "count", "headers", "--functions", "-o", "stand-in")
    assert run("./stand-in", "again") == run("./headers", "again")


def test_with_an_older_report_it_is_told_of_the_table_of_the_patched_file(headers):
    """Since that doesn't say where the original's stands."""
    patch("headers", "--symbols", "take", "--count")
    report = path_of("headers", "count", "report")
    with open(report, encoding="ascii") as file:
        text = file.read()
    with open(report, "w", encoding="ascii") as file:
        file.write(re.sub("^e9report 2\norigin .*\n", "e9report 1\n", text))
    os.remove(path_of("headers", "count", "blocks"))
    told, wanted = record("headers", "count"), run("./headers")
    entries = entries_of(path_of("headers", "count", "patched"))
    assert f"entries {entries} of" in told and f"entries {entries_of('headers')} of" in wanted, told


def told(*command: str) -> tuple[int, ...]:
    """What `vector` says that it is told: the address of its table, the number of entries, and its entry."""
    return struct.unpack("<3Q", subprocess.run(command, stdout=subprocess.PIPE, check=True).stdout)


def move_table(where: str) -> None:
    """Moves the table of `vector`, or adds a segment that has it too, in place of one that is not loaded."""
    with open("vector", "rb") as file:
        data = bytearray(file.read())
    table = data[HEADER : HEADER + ENTRY * entries_of("vector")]
    at = {"data": data.index(b"place for a table"), "end": len(data)}.get(where, HEADER)
    if where == "twice":
        (note,) = [it for it in range(0, len(table), ENTRY) if table[it] == PT_NOTE]
        table[note : note + ENTRY] = FRONT
    data[at : at + len(table)] = table
    struct.pack_into("<Q", data, TABLE_FIELD, at)
    with open("vector", "wb") as file:
        file.write(data)


@pytest.mark.parametrize("where", ["front", "data", "end", "twice"])
def test_the_address_of_a_table_is_what_the_kernel_says(programs, where):
    """Of a table in the front of the file, in a segment of data, behind all segments, where that is 0, or in two
    segments, of which the last one tells."""
    programs.bring("vector", "vector.c", "-nostdlib", "-fno-stack-protector")
    move_table(where)
    wanted = told("./vector")
    assert wanted[1:] == (entries_of("vector"), entry_of("vector")) and (wanted[0] == 0) == (where == "end")
    patch("vector", "--blocks", "--count", status=(0, 1))
    files = (path_of("vector", "count", "report"), "record", path_of("vector", "count", "patched"))
    assert told(*words_of_script("run_and_record", *files)) == wanted != told(f"./{files[2]}")
