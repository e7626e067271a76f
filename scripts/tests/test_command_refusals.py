"""What the command refuses: each is one line that names the word, and nothing is printed."""
import os
import shutil

import pytest

from tests.calls import run
from tests.command import LAST, call
from tests.programs import Programs, inside
from vaknuhol.main import MODULES

pytestmark = pytest.mark.xdist_group("command refusals")
NAMES = [name for names in MODULES.values() for name in names]
CONTROL = "a name with a newline or another control character is not taken: rename it"
REFUSED = [
    (["count", "a\nb"], 125, rf"PROGRAM: 'a\nb': {CONTROL}"),
    (["count", "tour", "--record", "a\x1bb"], 125, rf"--record: 'a\x1bb': {CONTROL}"),
    (["report", "tour", "a\u2028b"], 2, rf"RECORD: 'a\u2028b': {CONTROL}"),
    (["count", "tour", "walk"], 125, "walk: one argument too many (the program's own arguments go after --)"),
    (
        ["count", "tour", "--blob"],
        125,
        "--blob is no option (did you mean --blocks? --help lists them); a file of such a name is written ./--blob",
    ),
    (["count", "tour", "--entries", "0"], 125, "--entries: 0: a whole number from 1 on is needed"),
    (["count", "gone"], 125, "gone: No such file or directory"),
    (["count", "tour.cc"], 125, "tour.cc is no ELF file"),
    (["count", "still"], 125, "still may not be executed: chmod +x, or --patch-only"),
    (
        ["count", "bare", "--own"],
        125,
        "--own: no such block has a line of a source file of bare's own: was it built with -g?",
    ),
    (["frob"], 2, "frob is no command (vaknuhol help lists them)"),
    (["cuont", "tour"], 2, "cuont is no command (did you mean count? vaknuhol help lists them)"),
    (["help", "cuont"], 2, "cuont is no command (did you mean count? vaknuhol help lists them)"),
    (["--color", "always", "count", "gone", "--color", "never"], 125, "gone: No such file or directory"),
    (["--color", "never"], 2, f"a command is needed: one of {' '.join(NAMES)}"),
    (["--quiet"], 2, "--quiet is no option (--help lists them); a file of such a name is written ./--quiet"),
    (
        ["report", "tour", "--lconv", "a"],
        2,
        "--lconv is no option (did you mean --lcov? --help lists them); a file of such a name is written ./--lconv",
    ),
    (["unpatch", "tour", "a"], 2, "no report stands beside tour: name it by --report"),
    (["count"], 125, "the following arguments are required: PROGRAM (--help lists them)"),
    (["report", "tour", "gone"], 2, "gone: No such file or directory"),
    (
        ["report", "bare", LAST, "--lcov", "a"],
        2,
        "no block has a file and a line: was the program built with -g, and are its files its own (--all)?",
    ),
    (["report", "tour", LAST, "--json", "gone/a"], 2, "gone/a can't be written: No such file or directory"),
    (["report", "tour", "--per-run", "--lcov", "-"], 2, "--lcov: not allowed with argument --per-run"),
    (["report", "tour", "--per-run", "--table"], 2, "--table: not allowed with argument --per-run"),
    (["report", "tour", "--per-run", "--calls"], 2, "--calls: not allowed with argument --per-run"),
    (["merge", "a", LAST, "tour.cc"], 2, "tour.cc is no record of run_and_record"),
    (["dump", "999999999"], 2, "there is no process 999999999"),
    (["dump", "gone"], 2, "gone: there is no such process, and no such core file"),
    (["dump", "tour"], 2, "tour is no core file"),
    (["count", "stand-in"], 125, "stand-in is a stand-in that vaknuhol wrap wrote: name the original in its place"),
    (["report", "stand-in"], 2, "stand-in is a stand-in that vaknuhol wrap wrote: name the original in its place"),
    (
        ["report", "bare"],
        2,
        "bare.vak/last.record is not here: vaknuhol cover, count and ring write it where they are called; "
        "name a record that stands elsewhere",
    ),
    (
        ["report", "stand-in", LAST],
        2,
        "stand-in is a stand-in that vaknuhol wrap wrote: name the original in its place",
    ),
    (
        ["clean", "gone"],
        2,
        "gone.vak/records is not here: no stand-in of gone records its runs there (--records names another folder)",
    ),
    (["check", "bare"], 2, "bare has no patched file here: vaknuhol cover, count and ring make one"),
    (["gen", "x"], 2, "SEED: x: a whole number below 2^64 is needed"),
]


@pytest.fixture(scope="module")
def made(programs: Programs, module_place: str) -> str:
    """A folder with tour, its record, the same without symbols, one that may not be executed, and a stand-in."""
    with inside(module_place):
        home = programs.bring("tour", "tour.cc", compiler="g++")
        shutil.copyfile(f"{home}/tour.cc", "tour.cc")
        programs.patch("tour", "count", "PROGRAM")
        run("strip", "-o", "bare", "tour")
        shutil.copyfile("tour", "still")
        call("count", "tour", "--quiet", status=4)
        call("wrap", "cover", "tour", "--symbols", "main", "--into", "standing", "-o", "stand-in")
    return module_place


@pytest.mark.parametrize("words, status, text", REFUSED)
def test_each_refusal_is_one_line_that_names_the_word(made, words, status, text):
    with inside(made):
        printed, told = call(*words, status=status)
    assert (printed, told) == ("", f"vaknuhol: {text}\n"), f"{words}: {printed}{told}"


@pytest.mark.skipif(os.geteuid() == 0, reason="nothing is barred to root")
def test_a_folder_in_which_nothing_can_be_written_is_named(tour):
    """And no file in it that goes with the command."""
    os.makedirs("barred")
    os.chmod("barred", 0o555)
    assert call("count", "tour", "--into", "barred", status=125) == (
        "",
        "vaknuhol: barred can't be written: --into names another folder\n",
    )
