#!/usr/bin/env python3
"""Runs commands at each stated limit, with memory at hand, on built programs, and compares every byte that they print and leave.

None of them may run out of memory (status 6). The files of a case are made when its turn comes; the longest have 256 MB, nearly all of it
zeros. Some 2 GB of memory and as much room for temporary files are enough.

The exit status is 1 if a case fails, and 2 if a program or the named group is missing.
"""
import argparse
import os
import subprocess
import sys
import tempfile

from limit_cases import GROUPS, Case, Command
from limit_files import Content, difference, write

HANGS = 3600  # seconds: a command that takes longer has hung, however busy the machine is


def run(program: str, folder: str, command: Command) -> list[str]:
    """What differs of what the command answers and prints. No word of a case has a blank in it."""
    try:
        done = subprocess.run([program, *command.words.split()], cwd=folder, stdin=subprocess.DEVNULL, capture_output=True, timeout=HANGS)
    except subprocess.TimeoutExpired as error:
        return [str(error)]
    found = [] if done.returncode == command.status else [f"status {done.returncode}, wanted {command.status}"]
    found += [] if done.stdout == command.stdout else [f"printed {done.stdout[:300]!r}, wanted {command.stdout[:300]!r}"]
    return found + ([f"standard error {done.stderr[:300]!r}"] if done.stderr else [])


def compared(case: Case, folder: str, wanted: str) -> list[str]:
    """What differs in the files: each input is as it was, each output as it is to be, and there is no other."""
    told = []
    for name in sorted(os.listdir(folder)):
        if name not in case.inputs and name not in case.outputs:
            told.append(f"{name} should not be there")
    everything: dict[str, Content | None] = {**case.inputs, **case.outputs}
    for name, content in everything.items():
        if not os.path.exists(f"{folder}/{name}"):
            told.append(f"{name} is missing")
        elif content is not None:
            write(f"{wanted}/{name}", content)
            at = difference(f"{wanted}/{name}", f"{folder}/{name}")
            told += [] if at is None else [f"{name} differs at byte {at}"]
            os.remove(f"{wanted}/{name}")
    return told


def try_case(program: str, case: Case) -> list[str]:
    """What differs."""
    with tempfile.TemporaryDirectory() as folder, tempfile.TemporaryDirectory() as wanted:
        for name, content in case.inputs.items():
            write(f"{folder}/{name}", content)
        told = [it for command in case.commands for it in run(program, folder, command)]
        return told + compared(case, folder, wanted)


def main() -> None:
    parser = argparse.ArgumentParser(description=__doc__, formatter_class=argparse.RawDescriptionHelpFormatter)
    parser.add_argument("programs", metavar="PROGRAM", nargs="+", help="crates/e9tool/out/e9tool, say")
    parser.add_argument("--only", metavar="GROUP", help=", ".join(GROUPS))
    parser.add_argument("--verbose", action="store_true", help="a line for each case")
    asked = parser.parse_args()
    missing = [it for it in asked.programs if not os.access(it, os.X_OK)]
    missing += [] if asked.only in (None, *GROUPS) else [f"a group {asked.only}"]
    if missing:
        print(f"limits: {missing[0]} is not here", file=sys.stderr)
        sys.exit(2)
    passed = failed = 0
    for group, cases in GROUPS.items():
        for case in cases() if asked.only in (None, group) else ():
            for program in (os.path.realpath(it) for it in asked.programs):
                told = try_case(program, case)
                passed, failed = passed + (not told), failed + bool(told)
                if told or asked.verbose:
                    print(f"{os.path.basename(program)}: {group}: {case.name}: {'; '.join(told) or 'passed'}", flush=True)
    print(f"limits: {passed} passed, {failed} failed")
    sys.exit(1 if failed else 0)


if __name__ == "__main__":
    main()
