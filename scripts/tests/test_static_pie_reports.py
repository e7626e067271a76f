"""What is shown of a static PIE is what is shown of the program at fixed addresses that is linked of the same object: at a base by
which its addresses are the same, every word is."""
import os
import shutil
import subprocess

import pytest

from tests.calls import SOURCES, run
from tests.command import call
from vaknuhol.program.program_file import read_text
from vaknuhol.recording.record_file import Record

BASE, STATUS = "400000", 15  # the base at which ld links a program that isn't position independent
FLAGS = "-O1 -fPIE -nostdlib -fno-stack-protector -fcf-protection=none".split()
FIXED = "any.fixed"
SHOWN = [
    ("report", "{}", "{}.record"), ("report", "{}", "{}.record", "--table"), ("report", "{}", "{}.record", "--calls"),
    ("report", "{}", "{}.record", "--lcov", "-"), ("report", "{}", "{}.record", "--json", "-"),
    ("report", "{}", "{}.record", "--callgrind", "-"), ("report", "{}", "{}.record", "--folded", "-"),
    ("annotate", "{}", "--record", "{}.record"), ("diff", "{}", "{}.record", "{}.record"),
]


def link(*flags: str) -> None:
    """The static PIE `any`, and `any.fixed`, of the same objects."""
    run("gcc", *FLAGS, "-g", "-c", f"{SOURCES}/anywhere.c")
    run("gcc", *FLAGS, "-c", f"{SOURCES}/relocates.c")
    run("gcc", "-nostdlib", "-static-pie", "-Wl,-Tbss=8000", *flags, "-o", "any", "anywhere.o", "relocates.o")
    run("gcc", "-nostdlib", "-static", "-no-pie", "-Wl,-Tbss=408000", *flags, "-o", FIXED, "anywhere.o", "relocates.o")


@pytest.fixture
def both() -> None:
    link()


def code_of(name: str) -> int:
    """Where a function begins in both, as it is loaded."""
    return next(int(line.split()[0], 16) for line in run("nm", FIXED).splitlines() if line.split()[2:] == [name])


def recorded(*how: str) -> None:
    """The records of a run of each."""
    call(*how, "./any", "--base", BASE, "--record", "any.record", status=STATUS)
    call(*how, f"./{FIXED}", "--record", f"{FIXED}.record", status=STATUS)


def shown(program: str) -> list[str]:
    """What is shown of a program by its record, under the name of the other."""
    return [call(*(word.format(program) for word in words))[0].replace(FIXED, "any") for words in SHOWN]


@pytest.mark.parametrize("how", [("count",), ("count", "--fast", "--own")], ids=["count", "fast"])
def test_each_report_says_what_it_says_of_the_program_at_fixed_addresses(both: None, how: tuple[str, ...]) -> None:
    recorded(*how)
    told = shown("any")
    assert told == shown(FIXED)
    assert "fall anywhere.c:" in told[1] and " 40101a " in told[7]
    shutil.rmtree("any.vak")  # with the settled file: the record tells its base
    assert call("annotate", "any", "--record", "any.record")[0] == told[7]


def test_pages_without_lines_say_what_they_say_of_the_program_at_fixed_addresses(both: None) -> None:
    own = f"401000-{code_of('_start'):x}"  # without the relocations, which only one of them has
    run("strip", "any", FIXED)
    recorded("count", "--within", own)
    pages = []
    for program in ("any", FIXED):
        call("report", program, f"{program}.record", "--html", f"{program}.pages")
        names = sorted(os.listdir(f"{program}.pages"))
        pages.append([read_text(f"{program}.pages/{name}").replace(FIXED, "any") for name in names])
    assert pages[0] == pages[1] and len(pages[0]) > 4


def fit_of_both() -> list[str]:
    return [call("fit", program)[0].splitlines()[0].partition(": ")[2] for program in ("any", FIXED)]


def test_fit_tells_of_the_program_and_not_of_its_front(both: None) -> None:
    told = fit_of_both()
    assert told[0] == told[1] and "; not listed: 0 bytes" in told[0]


def test_fit_tells_of_sections_where_they_are_loaded() -> None:
    """And not of what is loaded around them."""
    link("-Wl,-z,noseparate-code")
    told = fit_of_both()
    assert told[0] == told[1] and "; not listed: 0 bytes" in told[0]


def test_fit_tells_of_a_program_without_sections(both: None) -> None:
    for program in ("any", FIXED):
        with open(program, "r+b") as file:
            file.seek(40)  # e_shoff
            file.write(bytes(8))
            file.seek(60)  # e_shnum, e_shstrndx
            file.write(bytes(4))
    told = fit_of_both()
    assert told[0] == told[1] and " bytes of text" in told[0]


def test_a_sum_of_records_keeps_the_base(both: None) -> None:
    call("count", "./any", "--base", BASE, "--record", "one.record", status=STATUS)
    call("count", "./any", "--base", "10000000", "--record", "other.record", status=STATUS)
    call("merge", "sum.record", "one.record", "one.record")
    shutil.rmtree("any.vak")
    assert Record("sum.record").base == 0x400000
    assert "it is the sum of 2 processes" in call("report", "any", "sum.record")[0]
    assert "are of different programs" in call("merge", "none", "one.record", "other.record", status=2)[1]
    shutil.copy("any.fixed", "any")
    assert "is of another program: any is not the original" in call("report", "any", "one.record", status=2)[1]


def test_a_static_pie_that_runs_by_itself_is_dumped(both: None) -> None:
    (patched,) = call("count", "./any", "--base", BASE, "--patch-only")[0].split()
    with subprocess.Popen([f"./{patched}", "word"], stdout=subprocess.PIPE) as it:
        assert it.stdout and it.stdout.read(1) == b"."
        told = call("dump", str(it.pid), "--record", "dumped")[0]
        it.kill()
    assert "this is the record so far" in told and "anywhere.c:" in told, told
    recorded("count")
    before = [[(row.first, row.count) for row in Record(name).rows if row.first < code_of("run")]
              for name in ("any.record", "dumped")]
    assert before[0] == before[1] and len(before[0]) > 9
