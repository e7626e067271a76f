"""Refusals: each is one line that says what is wrong, and no file is written or left."""
import os
import re
import shutil
import subprocess

import pytest

from tests.calls import patch, path_of, record, run, words_of
from tests.programs import HALTING, Programs, compile_text, inside

pytestmark = pytest.mark.xdist_group("refusals")
REPORT, PATCHED, STARTS = (path_of("lines", "count", it) for it in ("report", "patched", "starts"))


def refused(name, words, text, status, environment=None):
    done = subprocess.run(
        words_of(name, *words), capture_output=True, text=True, env={**os.environ, **(environment or {})}
    )
    assert (
        done.returncode == status and done.stderr == f"{name}: {text}\n"
    ), f"{name} {words}: {done.returncode} {done.stderr}"
    assert not done.stdout or "chosen" in done.stdout, f"{name} {words}: {done.stdout}"


DYNAMIC = "dynamic is dynamic, so its libraries are loaded as it runs: link with gcc -static, or take a static build of it"
PATCH: list[tuple[list[str], str]] = [
    (["lines.c", "--jumps"], "lines.c is no ELF file"),
    (["gone", "--jumps"], "gone: No such file or directory"),
    (["dynamic", "--jumps"], DYNAMIC),
    ([PATCHED, "--jumps"], f"{PATCHED} has a segment below 0x20000, as a patched file has: name the original"),
    (
        ["lines", "--jumps", "--reserve", "0x401000-0x402000"],
        "--reserve: 0x401000-0x402000: write two hexadecimal addresses without 0x, as 401000-402000",
    ),
    (
        ["lines", "--jumps", "--reserve", "2000-1000"],
        "--reserve: 2000-1000: the first address is below the second, which is at most 80000000",
    ),
    (
        ["lines", "--jumps", "--within", "main"],
        "--within: main: write two hexadecimal addresses without 0x, as 401000-402000",
    ),
    (
        ["lines", "--symbols", "("],
        "--symbols: ( is no regular expression: missing ), unterminated subpattern at position 0",
    ),
    (["lines", "--symbols", "gone"], "--symbols gone: no function's name is of this form"),
    (["lines", "--jumps", "--within", "1-2"], "no such block is there: choose others (--help)"),
    (["lines", "--jumps", "--source", "gone"], "--source gone: no such folder"),
    (["-prog", "--jumps"], "-prog is no option (--help lists them); a file of such a name is written ./-prog"),
    (["lines", "--functions", "--into", "lines.c/a"], "lines.c/a: Not a directory"),
    (["lines"], "one of the arguments --functions --blocks --jumps --symbols is required (--help lists them)"),
    (["lines", "--functions", "--blocks"], "--blocks: not allowed with argument --functions"),
    *(
        (
            ["lines", "--jumps", "--ring", it],
            f"--ring: {it} is no length of a ring: write it decimal, without a leading zero, " "from 1 to 65536",
        )
        for it in ("0", "65537", "03")
    ),
    (
        ["lines", "--jumps", "--when", "rdi = 5"],
        "--when: 'rdi = 5' is no comparison: write a register of 64 bits, one of "
        "== != < <= > >=, and a number, with one blank between them",
    ),
    (
        ["lines", "--jumps", "--when", "rdi == 5 and edi == 5"],
        "--when: 'edi == 5' is no comparison: write a register of 64 bits, "
        "one of == != < <= > >=, and a number, with one blank between them",
    ),
    *(
        (
            ["lines", "--jumps", "--when", f"rdi == {it}"],
            f"--when: {it} is no number that a register is compared with: "
            "write it decimal, without a leading zero, up to 2147483647",
        )
        for it in ("05", "0x5", "2147483648")
    ),
    (["lines", "--jumps", "--when", " and ".join(["rax > 0"] * 4)], "--when: 4 comparisons; a condition has at most 3"),
    (["lines", "--jumps", "--ring", "3", "--count"], "--ring: not allowed with argument --count"),
    (["lines", "--jumps", "--ring", "3", "--when", "rax > 0"], "--ring: not allowed with argument --when"),
    (
        ["hlt", "--symbols", "stop"],
        "no site could be patched (NotRelocatable 1 NoPlan 0 Shared 0), so nothing is written: choose other blocks, "
        "or reserve less",
    ),
]
RUN = [
    ([STARTS, "a", PATCHED], f"{STARTS} is no report of e9tool"),
    ([REPORT, "a", "./lines"], "./lines is the original: run the patched file, lines.vak/lines.count.patched"),
    ([REPORT, "a", "./dynamic"], f"./{DYNAMIC}"),
    (
        [REPORT, "a", "stripped"],
        f"stripped is not the patched file that {REPORT} is of: run {PATCHED}, as it was written",
    ),
    ([REPORT, "gone/a", PATCHED], "gone/a can't be written: No such file or directory"),
    ([REPORT, "a", "gone"], "gone: No such file or directory"),
    ([REPORT, "a"], "the following arguments are required: program (--help lists them)"),
    (["mixed.report", "a", PATCHED], "mixed.report is of another run than mixed.blocks: patch again"),
    (["listed.report", "a", PATCHED], "listed.starts is of another run than listed.report: patch again"),
    (
        ["none.report", "a", PATCHED],
        "none.report has no patched site, so there is nothing to record: patch other sites",
    ),
    (["trace.report", "a", PATCHED], "trace.report: these scripts can't read a record of the action trace"),
    (["ring.report", "a", PATCHED], "ring.report is of another run than ring.blocks: patch again"),
    (["frob.report", "a", PATCHED], "frob.blocks is no file of blocks: patch again"),
]
SHOW = [
    (["lines", STARTS], f"{STARTS} is no record of run_and_record"),
    (["other", "record"], "record is of another program: other is not the original that was patched"),
    ([PATCHED, "record"], f"record is of another program: {PATCHED} is not the original that was patched"),
    (["bare", "record", "--lcov", "a"], "no block has a file and a line: was the program built with -g?"),
    (["lines", "record", "--source", "gone"], "--source gone: no such folder"),
]


def prepare(programs):
    """The files that are mixed up: another program, a patched file that was stripped, lists and reports of other
    runs."""
    shutil.copyfile(f"{programs.bring('lines', 'lines.c', '-fcf-protection')}/lines.c", "lines.c")
    run("gcc", "-o", "dynamic", "lines.c")
    run("gcc", "-O2", "-static", "-no-pie", "-o", "other", "lines.c")
    run("strip", "-o", "bare", "lines")
    compile_text("hlt", "hlt.s", HALTING, "-nostdlib")
    patch("lines", "--functions", "--count")
    record("lines", "count", status=(7,))
    run("strip", "-o", "stripped", PATCHED)
    stem = REPORT.removesuffix("report")
    for name in ("mixed", "listed", "ring", "frob"):
        for ending in ("report", "blocks", "starts", "sites", "patched"):
            shutil.copyfile(stem + ending, f"{name}.{ending}")
    with open(REPORT, encoding="ascii") as file:
        text = file.read()
    changes = {
        "mixed": text.replace("page ", "page  ", 1),
        "ring": text.replace("action count", "action ring:8"),
        "trace": text.replace("action count", "action trace"),
        "none": re.sub(r"(?m)^(tramp|write|pun) .*\n", "", re.sub(r"(?m)^(site .*) \w+$", r"\1 NoPlan", text)),
    }
    for name, changed in changes.items():
        with open(f"{name}.report", "w", encoding="ascii") as file:
            file.write(changed)
    with open("listed.starts", "a", encoding="ascii") as file:
        file.write("7fff0000\n")
    with open(f"{stem}blocks", encoding="ascii") as file:
        text = file.read()
    with open("frob.blocks", "w", encoding="ascii") as file:
        file.write(text.replace("action count", "action frob"))


@pytest.fixture(scope="module")
def mixed_up(programs: Programs, module_place: str) -> str:
    """The folder of these files."""
    with inside(module_place):
        prepare(programs)
    return module_place


@pytest.fixture(autouse=True)
def nothing_is_left(mixed_up):
    """The working folder is that of the files, and a refused script leaves none there."""
    files = set(os.listdir(mixed_up))
    with inside(mixed_up):
        yield
    assert set(os.listdir(mixed_up)) == files, f"a refused script left {set(os.listdir(mixed_up)) - files}"


@pytest.mark.parametrize("words, text", PATCH)
def test_what_cannot_be_patched_is_refused_in_one_line(words, text):
    refused("patch_program", words, text, 2)


@pytest.mark.parametrize("words, text", RUN)
def test_what_cannot_be_recorded_is_refused_in_one_line(words, text):
    refused("run_and_record", words, text, 125)


@pytest.mark.parametrize("words, text", SHOW)
def test_what_cannot_be_shown_is_refused_in_one_line(words, text):
    refused("show_coverage", words, text, 2)


def test_an_output_without_a_folder_is_refused_in_one_line():
    refused(
        "starts_and_sites", ["lines", "a", "gone/b", "--jumps"], "gone/b can't be written: No such file or directory", 2
    )


@pytest.mark.parametrize(
    "named, text",
    [
        ("/gone/e9tool", "E9TOOL names /gone/e9tool, which is not there"),
        ("lines.c", "lines.c may not be executed: chmod +x"),
    ],
)
def test_a_tool_that_cannot_be_called_is_refused_in_one_line(named, text):
    refused("patch_program", ["lines", "--functions"], text, 2, {"E9TOOL": named})
