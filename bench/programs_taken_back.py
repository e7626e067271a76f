#!/usr/bin/env python3
"""programs_taken_back.py E9TOOL PROGRAM..: static programs are patched in both forms of the written file with four actions, at all
direct jumps, or at all functions where there are more than 65,536 jumps, and taken back by `unpatch`, which has to give the program
byte for byte. Where `patch` would write too long a table, new code is kept nearer and nearer by the RESERVE of patch_program.py, and
where that is not enough every function is a site in place of every jump, and then every eighth one."""
import os
import re
import subprocess
import sys
import tempfile

SCRIPTS = os.path.join(os.path.dirname(os.path.realpath(__file__)), "..", "scripts")
sys.path.insert(0, SCRIPTS)
from vaknuhol.recording.patching import RESERVES  # noqa: E402

Way = tuple[str, str, list[str]]  # which sites, the file that lists them, and the RESERVE
ACTIONS = ("cover", "count", "ring:64", "count when rdi == 2")


def call(tool: str, *words: str) -> tuple[int, str]:
    done = subprocess.run([tool, *words], capture_output=True, text=True)
    return done.returncode, done.stdout + done.stderr


def list_sites(program: str, kind: str) -> bool:
    """Writes `starts`, and the sites of a kind as a file of that name; whether they are as few as a list may have."""
    words = [sys.executable, os.path.join(SCRIPTS, "starts_and_sites.py"), program, "starts", kind, f"--{kind}"]
    done = subprocess.run(words, capture_output=True, text=True)
    if done.returncode and "at most 65536 can be patched" not in done.stderr:
        sys.exit(f"{program}: {done.stderr.strip()}")
    return done.returncode == 0


def ways(form: str, few: bool) -> list[Way]:
    """What is tried one after the other: which sites, the file that lists them, and the RESERVE."""
    kinds = [("functions", "functions"), ("every eighth function", "eighth")]
    kinds = [("jumps", "jumps"), *kinds] if few else kinds
    return [(what, sites, reserve) for what, sites in kinds for reserve in (RESERVES if form == "patch" else RESERVES[:1])]


def is_back(tool: str, program: str) -> bool:
    """Whether undoing `out` by `report` gives the program."""
    with open(program, "rb") as file:
        original = file.read()
    status, text = call(tool, "unpatch", "out", "report", "new")
    if (status, text) != (0, f"restored {len(original)}\n"):
        print(f"  unpatch: {status} {text.strip()}")
        return False
    with open("new", "rb") as file:
        return file.read() == original


def take_back(tool: str, program: str, form: str, action: str, left_ways: list[Way]) -> tuple[bool, str]:
    """Writes a file by the first way whose table isn't too long, and takes it back: whether that is the program, and how it was.
    The ways before that one are dropped."""
    while left_ways:
        what, sites, reserve = left_ways[0]
        for name in ("out", "report", "new"):
            if os.path.exists(name):
                os.unlink(name)
        status, text = call(tool, form, program, "starts", sites, action, "out", "report", *reserve)
        counts = re.search(r"patched (\d+) left (\d+)", text)
        if status in (0, 1) and counts:
            patched, left = counts.groups()
            return is_back(tool, program), f"{what}, {patched} patched, {left} left{''.join(f', RESERVE {it}' for it in reserve)}"
        if " TooManySegments " not in text:
            break
        left_ways.pop(0)
    return False, f"{status} {text.strip()}"


def take_all_back(tool: str, program: str) -> tuple[int, int]:
    """How many files of a program were written and taken back, of how many."""
    few = list_sites(program, "jumps")
    list_sites(program, "functions")
    with open("functions", encoding="ascii") as whole, open("eighth", "w", encoding="ascii") as part:
        part.writelines(whole.readlines()[::8])
    back = 0
    for form in ("load", "patch"):
        left_ways = ways(form, few)
        for action in ACTIONS:
            good, how = take_back(tool, program, form, action, left_ways)
            back += good
            print(f"{'back' if good else 'NOT BACK'} {os.path.basename(program)}, {form}, {action}: {how}", flush=True)
    return back, 2 * len(ACTIONS)


def main() -> bool:
    tool, programs = os.path.realpath(sys.argv[1]), [os.path.realpath(it) for it in sys.argv[2:]]
    tried = back = 0
    with tempfile.TemporaryDirectory() as folder:
        os.chdir(folder)
        for program in programs:
            taken, of = take_all_back(tool, program)
            back, tried = back + taken, tried + of
        os.chdir("/")
    print(f"taken back {back} of {tried} files of {len(programs)} programs")
    return back != tried


if __name__ == "__main__":
    sys.exit(main())
