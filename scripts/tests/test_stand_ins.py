"""Stand-ins: each run of a program in a suite of tests is recorded, whoever makes it."""
import json
import os
import re
import shutil
import subprocess
import sys

import pytest

from tests.calls import SOURCES, run
from tests.command import COMMAND, call, changed
from tests.needs import need
from tests.programs import Programs, inside
from tests.stand_ins import RECORDS, lines_of, suite_with_stand_in
from vaknuhol.recording.record_file import Record
from vaknuhol.recording.record_folder import paths_in

pytestmark = pytest.mark.xdist_group("stand ins")
AT_ONCE = 6
HALVES = "import vaknuhol.recording.default_choice\nvaknuhol.recording.default_choice.MOST = 24"
CALLS = (
    [("gcd", str(n)) for n in range(1, 80)]
    + [("prime", str(n)) for n in range(80)]
    + [("reverse", "x" * n) for n in range(1, 41)]
    + [("none", "1")]
)
MAKEFILE = """ALL = $(shell seq 0 {last})
all: $(ALL)
$(ALL): ; @$(PROGRAM) $$(sed -n $$(($@ + 1))p calls) > $@.out; echo $$? >> $@.out
.PHONY: all $(ALL)
"""


def by_gcov() -> dict[int, int]:
    """The lines that gcov knows, with the counts of the same calls."""
    run("gcc", "-O0", "-g", "--coverage", "-o", "suite.gcov", f"{SOURCES}/suite.c")
    for words in CALLS:
        subprocess.run(["./suite.gcov", *words], stdout=subprocess.DEVNULL, check=False)
    told = json.loads(run("gcov", "--json-format", "--stdout", next(it for it in os.listdir() if it.endswith(".gcda"))))
    return {it["line_number"]: it["count"] for files in told["files"] for it in files["lines"]}


def outputs() -> list[str]:
    texts = []
    for number in range(len(CALLS)):
        with open(f"{number}.out", encoding="utf-8") as file:
            texts.append(file.read())
    return texts


@pytest.fixture
def suite(programs: Programs) -> None:
    suite_with_stand_in(programs)


def make(program: str) -> list[str]:
    """All calls by make, eight at once; what each printed, and its status."""
    need("make")
    run("make", "-s", "-j8", f"PROGRAM={program}")
    return outputs()


@pytest.fixture(scope="module")
def calls_by_make(programs: Programs, module_place: str) -> str:
    """A folder with the records of all calls, which make started with the stand-in in the program's place."""
    with inside(module_place):
        suite_with_stand_in(programs)
        with open("calls", "w", encoding="ascii") as file:
            file.write("".join(" ".join(it) + "\n" for it in CALLS))
        with open("Makefile", "w", encoding="ascii") as file:
            file.write(MAKEFILE.format(last=len(CALLS) - 1))
        wanted = make("./suite")
        assert make("./stand-in") == wanted, "a call prints something else, or ends otherwise"
    return module_place


@pytest.fixture
def by_make(calls_by_make: str) -> None:
    """The same in the working folder; stand-ins record where they were written, so no other is called here."""
    shutil.copytree(calls_by_make, ".", dirs_exist_ok=True)


def test_each_call_by_make_has_a_record(by_make):
    assert len(paths_in(RECORDS)) == len(CALLS), f"{len(paths_in(RECORDS))} records of {len(CALLS)} calls"
    assert all(Record(path).state == "ended" for path in paths_in(RECORDS))
    assert len(call("report", "suite", "--per-run")[0].splitlines()) == len(CALLS)


def test_clean_keeps_as_many_records_as_it_is_asked_to(by_make):
    assert call("clean", "suite", "--keep", "3")[0] == f"removed {len(CALLS) - 3} of {len(CALLS)} records\n"
    assert len(paths_in(RECORDS)) == 3


def test_the_sum_of_calls_at_once_is_that_of_calls_one_by_one(by_make):
    """And that of a merged record."""
    at_once = lines_of()
    call("merge", "at_once.record", RECORDS)
    call("wrap", "count", "suite", "--blocks", "--own", "--records", "singly", "-o", "stand-in.here")
    for words in CALLS:
        subprocess.run(["./stand-in.here", *words], stdout=subprocess.DEVNULL, check=False)
    assert lines_of("singly") == at_once, f"calls one by one are recorded otherwise: {lines_of('singly')} and {at_once}"
    assert lines_of("at_once.record") == at_once, "a merged record is not the sum"
    assert (
        "0 were executed in at_once.record only, 0 in singly only"
        in call("diff", "suite", "at_once.record", "singly")[0]
    )


def test_the_lines_of_the_sum_are_those_of_gcov(by_make):
    ours, theirs = {line for line, count in lines_of().items() if count}, by_gcov()
    executed = {line for line, count in theirs.items() if count}
    assert (
        ours & theirs.keys() == executed and len(executed) > 20
    ), f"lines by the records alone: {ours - executed}, by gcov alone: {executed - ours}"


def test_a_stand_in_for_each_part_of_the_blocks_records_the_same(suite) -> None:
    """Where there are more than one file holds: the refusal names the parts."""
    choice = ("count", "suite", "--blocks", "--own", "--into", "suite.parts")
    _, told = changed(HALVES, "wrap", *choice, "-o", "half", status=2)
    ranges = re.findall(r"--within ([0-9a-f]+-[0-9a-f]+)", told)
    assert "a stand-in runs one" in told and len(ranges) == 2 and not os.path.exists("half"), told
    for number, part in enumerate(ranges):
        changed(HALVES, "wrap", *choice, "--within", part, "--records", "halves", "-o", f"half.{number}")
    call("clean", "suite")
    for program in ("./stand-in", "./half.0", "./half.1"):
        subprocess.run([program, "prime", "97"], stdout=subprocess.DEVNULL, check=False)
    assert len(paths_in("halves")) == 2 and lines_of("halves") == lines_of(), f"{lines_of('halves')} and {lines_of()}"


def test_runs_at_once_that_write_one_record_leave_a_whole_one(suite) -> None:
    words = [
        sys.executable,
        COMMAND,
        "count",
        "suite",
        "--blocks",
        "--own",
        "--quiet",
        "--record",
        "same.record",
        "--",
        "prime",
        "97",
    ]
    for it in [subprocess.Popen(words, stdout=subprocess.DEVNULL) for _ in range(AT_ONCE)]:
        assert it.wait() == 0
    assert Record("same.record").state == "ended" and not [it for it in os.listdir() if it.endswith(".part")]
