"""What is missing for the tests or an example is installed by root, and else named in one line; nothing is begun."""
import os
import shutil
import subprocess

import pytest

from tests.calls import SCRIPTS, TOP
from tests.needs import left_out, packages

BASICS = "bash sh basename dirname grep ls mktemp rm tail realpath".split()
INSTALL = "install --yes --no-install-recommends"
# Kind, name and package of what is here, and of what isn't.
ROWS = """# a comment

command sh dash
command gdb gdb
command gone elsewhere
file /etc/passwd passwd
file /et*/passw? passwd
file /etc/passw?/*/zydis.h libzydis-dev
module argparse python3
module nowhere_at_all gdb
"""
# What stands in for apt-get notes its words. It knows packages once there are lists, and installs a command gdb.
APT_GET = """#!/bin/sh
cd PLACE
echo "$*" >> calls
case "$*" in
    update) : > lists ;;
    *--simulate*) [ -e lists ] ;;
    *) [ -e lists ] && [ ! -e old ] && [ ! -e broken ] || { /bin/rm -f old; echo "E: not found"; exit 100; }
       /bin/ln -s /bin/sh bin/gdb ;;
esac
"""


def write(path: str, text: str) -> None:
    """A program, in the shell's words."""
    with open(path, "w", encoding="ascii") as file:
        file.write(text)
    os.chmod(path, 0o755)


def make_commands(names: set[str], user: int) -> None:
    """Makes bin/ with these commands, and with an apt-get, all called by this user."""
    os.mkdir("bin")
    for name in names - {"id", "apt-get"}:
        os.symlink(shutil.which(name) or "gone", f"bin/{name}")
    write("bin/id", f"#!/bin/sh\necho {user}\n")
    write("bin/apt-get", APT_GET.replace("PLACE", os.getcwd()))


def call(place: str, *words: str, **more: str) -> tuple[int, str, list[str]]:
    """The status of what is called with bin/ alone as its PATH, its output, and its lines of standard error."""
    environment = {"PATH": f"{place}/bin", **more}
    done = subprocess.run(words, env=environment, capture_output=True, text=True, check=False, timeout=100)
    return done.returncode, done.stdout, done.stderr.splitlines()


def look(place: str, *words: str, user: int) -> tuple[int, list[str], list[str]]:
    """The status of needed_tools.sh with the list ROWS, its lines, and the words of each call of apt-get."""
    make_commands(set(BASICS), user)
    shutil.copy(f"{SCRIPTS}/needed_tools.sh", ".")
    write("needed_tools.txt", ROWS)
    write("calls", "")
    status, output, lines = call(place, "sh", "./needed_tools.sh", *words)
    assert not output
    with open("calls", encoding="ascii") as file:
        return status, lines, file.read().splitlines()


@pytest.mark.parametrize("has_lists", [True, False])
def test_a_user_is_told_in_one_line_what_is_missing_and_what_installs_it(place: str, has_lists: bool) -> None:
    if has_lists:
        write("lists", "")
    words = f"{INSTALL} gdb elsewhere libzydis-dev"
    told = "needed_tools.sh: missing: gdb, gone, /etc/passw?/*/zydis.h, nowhere_at_all. As root, this installs it: "
    told += f"apt-get {words}" if has_lists else f"apt-get update && apt-get {words}"
    assert look(place, "--install", user=1000) == (1, [told], [f"--simulate {words}"])


def test_root_installs_nothing_unasked(place: str) -> None:
    told = f"needed_tools.sh: missing: gdb. As root, this installs it: apt-get update && apt-get {INSTALL} gdb"
    assert look(place, "sh", "gdb", user=0) == (1, [told], [f"--simulate {INSTALL} gdb"])


@pytest.mark.parametrize(
    ("has", "wanted"),
    [
        ((), ["simulated", "update", "install"]),
        (("lists",), ["simulated", "install"]),
        (("lists", "old"), ["simulated", "install", "update", "install"]),
    ],
    ids=["no lists", "lists", "old lists"],
)
def test_root_installs_by_new_lists_where_there_are_none_or_old_ones(
    place: str, has: tuple[str], wanted: list[str]
) -> None:
    for name in has:
        write(name, "")
    status, lines, calls = look(place, "--install", "gdb", "sh", user=0)
    words = {"simulated": f"--simulate {INSTALL} gdb", "install": f"-o DPkg::Lock::Timeout=600 {INSTALL} gdb"}
    assert status == 0 and calls == [words.get(name, name) for name in wanted], lines
    told = [f"needed_tools.sh: apt-get {INSTALL} gdb"]
    told = ["needed_tools.sh: apt-get update", *told] if not has else told
    assert lines == (told if "old" not in has else [*told, "E: not found", "needed_tools.sh: apt-get update"])


def test_what_apt_says_is_shown_where_it_installs_nothing(place: str) -> None:
    write("broken", "")
    status, lines, _ = look(place, "--install", "gone", user=0)
    assert status == 1 and lines.count("E: not found") == 2, lines
    assert lines[-1] == f"needed_tools.sh: missing: gone. As root, this installs it: apt-get {INSTALL} elsewhere"


def test_nothing_is_done_where_all_is_here(place: str) -> None:
    assert look(place, "--install", "sh", "argparse", "/et*/passw?", user=0) == (0, [], [])


def test_a_name_that_the_list_lacks_is_refused(place: str) -> None:
    told = "needed_tools.sh: ./needed_tools.txt has no zydis"
    assert look(place, "--install", "gdb", "zydis", user=0) == (2, [told], [])


def test_ci_names_in_one_line_what_is_missing_and_begins_nothing(place: str) -> None:
    """In a PATH without Python, too."""
    lacking = {"python3", "lcov", "gcovr"}
    make_commands({*packages(), *BASICS} - lacking, user=1000)
    write("bin/rt", f"#!/bin/sh\n: > {place}/begun\n")
    status, output, lines = call(place, f"{TOP}/.ci/run")
    assert status == 1 and not output and len(lines) == 1 and not os.path.exists("begun"), lines
    missing, _, installs = lines[0].partition(". As root, this installs it: apt-get ")
    assert lacking <= set(missing.partition("missing: ")[2].split(", "))
    assert lacking <= set(installs.split())


def test_ci_ends_as_the_gate_does(place: str) -> None:
    """With all that is needed: what is missing here is another test's matter."""
    make_commands({*packages(), *BASICS}, user=1000)
    write("bin/rt", '#!/bin/sh\necho "rt $*, CI=$CI"\nexit 3\n')
    status, output, lines = call(place, f"{TOP}/.ci/run")
    if any("missing: " in line for line in lines):
        left_out(lines[0])
    assert (status, output, lines) == (3, "rt ci, CI=true\n", [])


@pytest.mark.parametrize("name", [".ci/run", "examples/count.sh"])
def test_the_kit_is_named_where_it_is_missing(place: str, name: str) -> None:
    make_commands(set(BASICS), user=0)
    copy = f"{place}/copy"
    left = {"native", "tests", ".git"}
    shutil.copytree(TOP, copy, ignore=lambda folder, names: names if folder.endswith("/crates") else left)
    status, output, lines = call(place, f"{copy}/{name}")
    told = f"{name.removeprefix('examples/')} needs rt of the Rattle kit, which is not here"
    assert status == 1 and not output and len(lines) == 1 and lines[0].startswith(told), lines
    assert not os.path.exists("calls")


def test_an_example_names_in_one_line_what_is_missing(place: str) -> None:
    make_commands({*packages(), *BASICS} - {"gcc", "python3"}, user=1000)
    status, output, lines = call(place, f"{TOP}/examples/count.sh", E9TOOL="/bin/sh")
    assert (status, output, len(lines)) == (1, "--- looks for what count.sh needs\n", 1), lines
    missing, _, installs = lines[0].partition(". As root, this installs it: apt-get ")
    assert {"gcc", "python3"} <= set(missing.partition("missing: ")[2].split(", ")) & set(installs.split())
