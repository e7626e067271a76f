"""The command itself: a run with its summary, what is kept, many sites, manners."""
import os
import re
import shutil
import signal
import stat
import sys

import pytest

from tests.calls import TOP, run
from tests.command import COMMAND, LAST, PARTS, STEP, alike, call, changed, count_of, counts, known
from tests.programs import inside
from vaknuhol.main import MODULES, command_parser, modules_for

NAMES = [name for names in MODULES.values() for name in names]
WALKED = "sum 4950\n"


def test_the_table_of_commands_has_the_names_of_their_modules():
    assert [
        name for module in modules_for([]) for name in module.NAMES
    ] == NAMES, "the table of commands and their modules differ"


@pytest.mark.parametrize("words", [[], *([name] for name in NAMES)], ids=lambda words: " ".join(words) or "vaknuhol")
def test_each_level_has_help_and_version(words, monkeypatch):
    told, _ = call(*words, "--help")
    assert told.startswith("usage: vaknuhol") and "--version" in told, told
    assert words or all(f"    {name} " in told for name in NAMES), told
    assert call("help", *words) == (told, "") and (words or call() == (told, ""))
    assert re.fullmatch(r"vaknuhol [0-9.]+\n", call(*words, "--version")[0])
    top = command_parser(words)
    helps = {}
    for width in (60, 80, 100):
        monkeypatch.setenv("COLUMNS", str(width))
        helps[width] = (top.levels[words[0]] if words else top).format_help()
        longest = max(helps[width].splitlines(), key=len)
        assert len(longest) <= width, f"{words}: wider than {width}: {longest}"
    assert helps[80] == told


def test_the_version_is_the_first_of_the_change_log():
    """And that of the package in the documents."""
    printed = call("--version")[0].split()[1]
    told = {}
    for name, wanted in (("CHANGELOG.md", r"^## ([0-9.]+)$"), ("README.md", r"vaknuhol_([0-9.]+)_amd64\.deb")):
        with open(f"{TOP}/{name}", encoding="utf-8") as file:
            told[name] = re.findall(wanted, file.read(), re.M)
    assert told["CHANGELOG.md"][:1] == [printed] and set(told["README.md"]) == {printed}, (printed, told)


def test_one_command_patches_runs_and_shows(counted_tour):
    """The program's words, output and status are its own."""
    printed, shown = call("count", "tour", "--", "walk", "100", status=4)
    assert printed == WALKED and printed == run("./tour", "walk", "100", status=(4,))
    assert count_of(shown, f"{STEP}  tour.cc:11") == 100, shown
    assert re.search(rf"^ +[0-9]+ +[0-9]+ +[0-9.]+ % {re.escape(counted_tour)}/tour\.cc", shown, re.M), shown


def test_a_file_below_the_working_folder_has_its_name_from_there(counted_tour):
    call("count", "tour", "--quiet", "--", "walk", "1", status=4)
    program, record = os.path.realpath("tour"), os.path.realpath(LAST)
    with inside(counted_tour):
        shown = call("report", program, record)[0]
    assert re.search(r"^ +[0-9]+ +[0-9]+ +[0-9.]+ % tour\.cc", shown, re.M), shown


def test_cover_says_which_blocks_were_executed(tour):
    printed, shown = call("cover", "tour", "--", "walk", "100", status=4)
    assert printed == WALKED and "hottest" not in shown and "blocks were executed" in shown, shown
    assert set(known().values()) == {0, 1}


def test_words_and_input_are_the_programs_own(counted_tour):
    assert call("count", "tour", "--quiet", "--", "--", "100", status=4) == ("never\nsum 0\n", "")
    assert call("count", "tour", "--quiet", "--record", "other", "--", "copy", status=4, text="abc")[0].startswith(
        "3 bytes"
    )
    assert sum(known("other").values()) and os.path.isfile("other")


def test_a_function_can_be_chosen_by_its_name(tour):
    call("count", "tour", "--symbols", "main", "--quiet", status=4)
    assert list(counts().values()) == [1]


def test_a_ring_shows_the_last_executions_before_a_crash(tour):
    _, shown = call("ring", "6", "tour", "--", "crash", "3", status=128 + signal.SIGABRT)
    assert (
        "which ended by SIGABRT: all 6 events\n" in shown and shown.count(f"{STEP}  tour.cc:11\n") == 1
    ), shown
    assert re.search(
        r"\n    main  tour\.cc:4[0-9]\n(?:of the blocks [0-9]+ (?:was|were) left \(.+\): [^\n]+\n)?$", shown
    ), shown
    assert ("of the blocks" in shown) == ("blocks, left: " in shown), shown
    assert "it has no counts" in call("report", "tour", "--lcov", "a", status=2)[1]


def test_a_condition_keeps_other_executions_out(tour):
    call("count", "tour", "--symbols", ".*Walk.*step.*", "--when", "rsi == 3", "--quiet", "--", "walk", "10", status=4)
    assert list(counts().values()) == [1]


STRANGE = """#line 1 "<made>"
int made(int n) { return n + 1; }
#line 4 "strange.c"
__asm__(".text; .type odd, @function; odd: ret; .byte 6, 6, 6, 6, 6");
int main(void) { return made(2); }
"""


def test_what_is_no_file_is_no_file_of_the_programs_own():
    """As compilers name it; and of blocks that aren't the program's own nothing is said."""
    with open("strange.c", "w", encoding="utf-8") as file:
        file.write(STRANGE)
    run("gcc", "-O0", "-g", "-static", "-no-pie", "-o", "strange", "strange.c")
    os.remove("strange.c")
    _, shown = call("count", "strange", status=3)
    assert "% strange.c" in shown and "<made>" not in shown and "beside bytes" not in shown, shown
    at = {name: int(addr, 16) for addr, name in re.findall(r"^(\w+) [tT] (made|odd|main)$", run("nm", "strange"), re.M)}
    own = f"{min(at.values()):x}-{max(at.values()) + 32:x}"
    _, shown = call("count", "strange", "--blocks", "--within", own, status=3)
    assert re.search("blocks? beside bytes that are not listed as code (is|are) not patched", shown), shown


def test_a_patched_file_is_used_again_while_it_is_made_of_the_same(counted_tour):
    """Of the same program, choice, tool and scripts."""
    (path,) = call("count", "tour", "--patch-only")[0].split()
    first = os.stat(path).st_mtime_ns
    assert "patched" not in call("count", "tour", "--", "walk", "1", status=4)[1] and os.stat(path).st_mtime_ns == first
    assert call("count", "tour", "--functions", "--patch-only")[0].split() != [path]
    assert os.stat(path).st_mtime_ns == first
    shutil.copyfile("tour", "tour.before")
    run("objcopy", "--remove-section", ".comment", "tour")
    assert (
        "patched" in call("count", "tour", "--", "walk", "1", status=4)[1]
    ), "another program's patched file is used again"
    shutil.copyfile("tour.before", "tour")
    with open(path, "ab") as file:
        file.write(b"changed")
    assert "patched" in call("count", "tour", "--", "walk", "1", status=4)[1], "a changed patched file is used again"


def test_check_says_yes_of_each_kind_of_patched_file(counted_tour):
    kinds = (
        ["cover", "tour"],
        ["ring", "6", "tour"],
        ["count", "tour", "--functions"],
        ["count", "tour", "--symbols", "main"],
        ["count", "tour", "--symbols", ".*Walk.*step.*", "--when", "rsi == 3"],
    )
    for words in kinds:
        call(*words, "--patch-only")
    assert call("check", "tour")[0].count(": check yes\n") == len(kinds) + 1


@pytest.mark.parametrize("mode, wanted", [(0o700, 0o700), (0o640, 0o750), (0o755, 0o755)], ids=oct)
def test_who_may_read_the_original_may_run_the_patched_file(tour, mode, wanted):
    """And nobody else."""
    shutil.copyfile("tour", "moded")
    os.chmod("moded", mode)
    (path,) = call("count", "moded", "--symbols", "main", "--into", f"of_{mode:o}", "--patch-only")[0].split()
    now = stat.S_IMODE(os.stat(path).st_mode)
    assert now == wanted, f"of a program of mode {mode:o} the patched file has {now:o}, not {wanted:o}"


def test_blocks_in_several_files_have_the_same_counts_as_in_one(counted_tour):
    """Where there are more than one file holds: a run with each, one record, with the same input for each."""
    call("count", "tour", "--quiet", "--", "copy", status=4, text="seven b")
    whole = known()
    printed, shown = changed(
        PARTS, "count", "tour", "--into", "parts", "--record", "sum", "--", "copy", status=4, text="seven b"
    )
    files = -(-len(counts()) // 8)
    assert printed == "7 bytes\nsum 675\n" and f"the program runs {files} times" in shown and files > 2, shown
    before = shown[: shown.index("vaknuhol: patched ")]
    assert f"the program will run {files} times" in before and before.count("--within ") == files, shown
    assert alike(known("sum"), whole), "the parts have other counts than the whole"
    assert "sum of" not in shown and not [it for it in os.listdir() if it.startswith("sum.")]
    with open("input", "w", encoding="ascii") as file:
        file.write("seven b")
    with open("input", encoding="ascii") as file:
        changed(
            PARTS,
            "count",
            "tour",
            "--into",
            "parts",
            "--record",
            "again",
            "--quiet",
            "--",
            "copy",
            status=4,
            stdin=file,
        )
    assert alike(known("again"), whole), "the runs have not read the same file"


def test_a_ring_is_of_one_file(tour):
    _, told = changed(PARTS, "ring", "9", "tour", "--into", "parts", status=125)
    assert "a ring is of one file" in told


# Work goes on when the line on standard error that tells of it stands there, so that each is seen however fast the work
# is.
EACH_SAID = """
import time
from vaknuhol import messages

def begin_and_wait(self, text, begin=messages.Progress.__call__):
    begin(self, text)
    while text and text not in said:
        time.sleep(0.001)

def say_and_note(text, *more, say=messages.say):
    say(text, *more)
    said.add(text.rpartition(", ")[0])

said, messages.SELDOM = set(), 0.001
messages.Progress.__call__, messages.say = begin_and_wait, say_and_note
"""


def test_quiet_says_nothing(tour):
    """Neither as the program is patched nor afterwards."""
    for into in ("quiet", "quiet"):
        assert call("count", "tour", "--quiet", "--into", into, "--", "walk", "1", status=4) == ("sum 0\n", "")


def test_on_a_pipe_long_work_is_told_of(tour):
    _, told = changed(EACH_SAID, "count", "tour", "--into", "told", "--", "walk", "1", status=4, has_progress=True)
    lines = re.findall(r"^vaknuhol: patching [0-9]+ blocks, round [0-9]+.*, [0-9]+ s$", told, re.M)
    assert lines and re.search(r"^vaknuhol: reading tour, [0-9]+ s$", told, re.M), told


def test_colours_are_for_terminals_and_for_those_who_ask(counted_tour):
    call("count", "tour", "--quiet", "--", "walk", "1", status=4)
    plain, painted = call("diff", "tour", LAST, LAST), call("check", "tour", "--color", "always")
    assert "\x1b" not in plain[0] and painted[0].count("\x1b[32mcheck yes\x1b[m\n") == 1, painted
    assert "\x1b" not in call("check", "tour")[0]
    shown = call("report", "tour", "--color", "always")[0]
    assert re.search(rf"\x1b\[3[123]m +[0-9.]+ %\x1b\[m {re.escape(counted_tour)}/tour\.cc", shown), shown
