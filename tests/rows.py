#!/usr/bin/env python3
"""Runs rows, commands with files before and after them, on built programs, and compares every byte.

A row is a folder tests/rows/NAME:
  words    the program's arguments, one a line
  before/  the files that are there before; if it is missing, none
  status   the exit status
  stdout   what is printed, exactly; standard error stays empty
  after/   the files that the command makes or changes; every other file stays, and there is no further one
  why      what the row shows, in a line, if its name doesn't say it

Rows that a rule or a table makes are in the modules that GIVEN names. The exit status is 1 if a row fails, and 2 if a
program or the named row is missing.
"""
import argparse
import os
import re
import subprocess
import sys
import tempfile
from concurrent.futures import ThreadPoolExecutor

from changed_rows import changed_files_rows
from delivered_rows import delivered_rows
from file_rows import file_rows
from made_rows import TESTS, Row, files_in, made_rows, read
from placed_rows import placed_rows
from plan_rows import plan_rows
from refused_rows import refused_rows
from report_rows import report_rows
from scripted_rows import scripted_rows
from settled_rows import settled_rows
from stepped_rows import stepped_rows
from verdict_rows import verdict_rows
from word_rows import word_rows

# what makes rows by a rule or from a table
GIVEN = (
    made_rows,
    changed_files_rows,
    plan_rows,
    refused_rows,
    verdict_rows,
    stepped_rows,
    scripted_rows,
    delivered_rows,
    word_rows,
    report_rows,
    placed_rows,
    file_rows,
    settled_rows,
)
HANGS = 3600  # seconds: a command that takes longer has hung, however busy the machine is


def lines(data):
    """Lines that each end with LF; an empty one is an empty word."""
    return data.split(b"\n")[:-1]


def read_row(name):
    at = f"rows/{name}"
    status, stdout = int(read(f"{at}/status")), read(f"{at}/stdout")
    return Row(name, lines(read(f"{at}/words")), files_in(f"{at}/before"), status, stdout, files_in(f"{at}/after"))


def difference(what, wanted, found):
    """A line on the first byte at which two texts differ, none where they are equal."""
    if wanted == found:
        return []
    at = next((i for i, (a, b) in enumerate(zip(wanted, found)) if a != b), min(len(wanted), len(found)))
    shown = " ".join(f"{name} {data[at : at + 16].hex() or 'its end'}" for name, data in (("wanted", wanted), ("found", found)))
    return [f"{what} differs at byte {at}: {shown}"]


def differences(row, status, stdout, stderr, files):
    """What differs from the row, one text each."""
    told = []
    if row.status is None:
        whole = b"%d\n%s" % (status, stdout)
        told += [] if re.fullmatch(row.stdout, whole) else [f"status and output fit no pattern: {whole!r}"]
    else:
        told += [] if status == row.status else [f"status {status}, wanted {row.status}"]
        told += difference("standard output", row.stdout, stdout)
    told += difference("standard error", b"", stderr)
    wanted = {**row.inputs, **row.outputs}
    told += [f"{name} is missing" for name in sorted(wanted.keys() - files.keys())]
    told += [f"{name} should not be there" for name in sorted(files.keys() - wanted.keys())]
    for name in sorted(wanted.keys() & files.keys()):
        told += difference(name, wanted[name], files[name])
    return told


def run(program, row):
    """Runs a row in a folder of its own, and returns what differs."""
    with tempfile.TemporaryDirectory() as folder:
        for name, data in row.inputs.items():
            with open(f"{folder}/{name}", "wb") as file:
                file.write(data)
        words = [os.fsencode(program), *row.words]
        try:
            done = subprocess.run(words, cwd=folder, stdin=subprocess.DEVNULL, capture_output=True, timeout=HANGS)
            return differences(row, done.returncode, done.stdout, done.stderr, files_in(folder))
        except (OSError, subprocess.TimeoutExpired) as error:
            return [str(error)]


def main():
    parser = argparse.ArgumentParser(description=__doc__, formatter_class=argparse.RawDescriptionHelpFormatter)
    parser.add_argument("programs", metavar="PROGRAM", nargs="+", help="crates/e9tool/out/e9tool, say")
    parser.add_argument("--only", metavar="NAME", default="", help="only the rows whose names begin with NAME")
    asked = parser.parse_args()
    rows = [read_row(name) for name in sorted(os.listdir(f"{TESTS}/rows"))]
    rows += [row for rows_of in GIVEN for row in rows_of()]
    rows = [row for row in rows if row.name.startswith(asked.only)]
    missing = [it for it in asked.programs if not os.access(it, os.X_OK)]
    missing += [] if rows else [f"a row {asked.only}"]
    if missing:
        print(f"rows: {missing[0]} is not here", file=sys.stderr)
        sys.exit(2)
    tries = [(os.path.realpath(program), row) for program in asked.programs for row in rows]
    failed = 0
    with ThreadPoolExecutor(os.cpu_count()) as pool:
        for (program, row), told in zip(tries, pool.map(lambda it: run(*it), tries)):
            if told:
                failed += 1
                print(f"{os.path.basename(program)}: {row.name}: {'; '.join(told)}")
    print(f"rows: {len(tries) - failed} passed, {failed} failed")
    sys.exit(1 if failed else 0)


if __name__ == "__main__":
    main()
