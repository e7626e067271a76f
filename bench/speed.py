#!/usr/bin/env python3
"""Makes the tables of docs/evidence/speed.md, each with its yardsticks beside it, in one run of some ten minutes.

speed.py [--write] [--only ROW].. [E9TOOL] measures crates/e9tool/out/e9tool, $E9TOOL or the one that is named, and
prints a table for each row; --write puts them into the page, where a line names each, and README's section on costs
(row factors). Times are the least of some runs, of the processor unless the table says "by the clock"; they mean
something only if nothing else runs. Instructions are counted by callgrind and are the same from run to run; MiB are
peak memory. The row of a tool or a program that isn't installed says so.
"""
import argparse
import datetime
import os
import re
import sys
import tempfile
import textwrap
import time
from collections.abc import Callable
from typing import NamedTuple

from costs import README, SECTION, model
from measures import commands, patched_runs, programs, scattered, sites, starts, steps, worst_sites
from measures.running import TOP, WIDTH, Bench, has_valgrind

PAGE = os.path.join(TOP, "docs", "evidence", "speed.md")


def machine(bench: Bench) -> list[str]:
    """Where and when the tables were made."""
    kernel = ".".join(os.uname().release.split(".")[:2])
    beside = ", while other programs ran" if os.getloadavg()[0] > 1 else ""
    text = (f"Measured on {datetime.date.today():%-d %B %Y}{beside}: `{os.path.basename(bench.tool)}` on "
            f"{os.cpu_count()} processors ({model()}), Linux {kernel}.")
    return textwrap.wrap(text, WIDTH)


class Row(NamedTuple):
    """How a row is made, and how its place in the page begins."""
    made: Callable[[Bench], list[str]]
    front: str


ROWS = {
    "machine": Row(machine, "Measured on "),
    "programs": Row(programs.programs, "| Program |"),
    "starts": Row(starts.starts, "- **A start**"),
    "sites": Row(sites.jumps, "| Sites, by B1 |"),
    "searches": Row(sites.searches, "- **A site**"),
    "worst": Row(worst_sites.worst, "- **Files made to be slow**"),
    "segments": Row(worst_sites.many_segments, "- **Segments of one page of FILE**"),
    "scattered": Row(scattered.scattered, "| Sites, a page each |"),
    "steps": Row(steps.steps, "| A step |"),
    "guests": Row(steps.guests, "- **`gen`**"),
    "commands": Row(commands.commands, "- **bash-static with a run of `echo`**"),
    "events": Row(patched_runs.events, "- **An event**"),
    "runs": Row(scattered.runs, "- **A start by runs of pages**"),
    "nothing": Row(patched_runs.starts, "- **A program that does nothing**"),
    "factors": Row(patched_runs.factors, ""),
}


def write(row: str, lines: list[str]) -> None:
    """Puts a row into the page, in place of the table or the point that begins so; README has a section of its own."""
    path = README if row == "factors" else PAGE
    text = "\n".join([*lines, ""])
    place = SECTION if row == "factors" else re.compile(rf"^{re.escape(ROWS[row].front)}.*\n(?:(?!- |\n).*\n)*", re.M)
    with open(path, "r+", encoding="utf-8") as file:
        page, number = place.subn(lambda _: text, file.read())
        if number != 1:
            sys.exit(f"speed.py: {path} has {number} places for {row}")
        file.seek(0)
        file.truncate()
        file.write(page)


def main() -> None:
    parser = argparse.ArgumentParser(description=__doc__, formatter_class=argparse.RawDescriptionHelpFormatter)
    parser.add_argument("--write", action="store_true", help="put the tables into the page")
    parser.add_argument("--only", action="append", choices=list(ROWS), metavar="ROW", help=", ".join(ROWS))
    parser.add_argument("tool", nargs="?", metavar="E9TOOL",
                        default=os.environ.get("E9TOOL", os.path.join(TOP, "crates", "e9tool", "out", "e9tool")))
    words = parser.parse_args()
    tool = os.path.realpath(words.tool)
    if not os.access(tool, os.X_OK):
        sys.exit(f"speed.py: {tool} is not here")
    if not has_valgrind():
        sys.exit("speed.py: instructions are counted by callgrind: install valgrind")
    for row in words.only or ROWS:
        begun = time.monotonic()
        with tempfile.TemporaryDirectory() as folder:
            lines = ROWS[row].made(Bench(tool, folder))
        print(f"{row}:", *lines, "", sep="\n", flush=True)
        print(f"speed.py: {row} took {time.monotonic() - begun:.0f} s", file=sys.stderr, flush=True)
        if words.write:
            write(row, lines)


if __name__ == "__main__":
    main()
