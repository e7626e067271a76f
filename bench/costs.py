#!/usr/bin/env python3
"""What recording a run costs, by vaknuhol and by each other tool that is here.

costs.py [--write] [-n RUNS] [SOURCE.c [FUNCTION]] [-- ARGUMENTS] builds SOURCE.c (bench/costs.c), runs it by itself and
under each tool, and prints README's section on costs; --write puts it there. FUNCTION (divisors_of) is the one whose
calls gdb counts. A tool that isn't installed is left out, and named with its Debian package on standard error.
vaknuhol's runs are those of stand-ins, so the runner's work and the record are in them; patching, and showing the
record, are not. With all tools it takes some three minutes.

costs.py [-n RUNS] NAME=COMMAND... [-- ARGUMENTS] compares commands of your own; the first one is the original.

Each command is run in turns with the others, RUNS times (1) in a turn. Processor time (user and system) and wall time
are a run's, the least of five turns; a command that took ten seconds of the processor is run once, and one that doesn't
end in LIMIT seconds by the clock is ended, and shown as "more than". What a run leaves behind, as a stand-in's runner,
counts in processor time."""
import argparse
import ctypes
import dataclasses
import itertools
import os
import re
import resource
import shutil
import subprocess
import sys
import tempfile
import textwrap
import time
from collections.abc import Callable

TOP = os.path.dirname(os.path.dirname(os.path.realpath(__file__)))
README = os.path.join(TOP, "README.md")
VAKNUHOL = os.path.join(TOP, "bin", "vaknuhol")
TURNS, LONG, LIMIT = 5, 10.0, 100.0  # seconds
BUSY = 1.2  # times its processor time a run takes by the clock at most, on a machine that does nothing else
WIDTH = 155  # of README's lines
SET_CHILD_SUBREAPER = 36  # linux/prctl.h
GCC = ["gcc", "-g", "-O2"]
SECTION = re.compile(r"(?<=^## What it costs\n).*?\n(?=\n## )", re.M | re.S)


@dataclasses.dataclass
class Cost:
    """What one run costs at least: seconds of processor time, seconds by the clock, page faults."""
    processor: float = float("inf")
    wall: float = float("inf")
    faults: int = 0
    is_whole: bool = True

    def times(self, base: "Cost") -> str:
        times = self.processor / base.processor
        return f"{'' if self.is_whole else 'more than '}{times:.{2 if times < 10 else 0}f}"


@dataclasses.dataclass
class Tool:
    """A tool of the table: what it records, the command that it needs, its Debian package, what builds what is run."""
    name: str
    records: str
    needs: str
    package: str
    build: Callable[[str], list[str]]


def run(words: list[str], runs: int) -> Cost:
    """What one of so many runs costs."""
    before, begun, is_whole = resource.getrusage(resource.RUSAGE_CHILDREN), time.monotonic(), True
    for _ in range(runs):
        try:
            subprocess.run(words, stdin=subprocess.DEVNULL, stdout=subprocess.DEVNULL, stderr=subprocess.DEVNULL,
                           check=False, timeout=LIMIT)
        except subprocess.TimeoutExpired:
            is_whole = False
            break
    wall = time.monotonic() - begun
    while True:
        try:
            os.wait()
        except ChildProcessError:
            break
    after = resource.getrusage(resource.RUSAGE_CHILDREN)
    processor = after.ru_utime + after.ru_stime - before.ru_utime - before.ru_stime
    return Cost(processor / runs, wall / runs, (after.ru_minflt - before.ru_minflt) // runs, is_whole)


def measured(commands: dict[str, list[str]], runs: int) -> dict[str, Cost]:
    """The least cost of each command."""
    least = {name: Cost() for name in commands}
    for turn in range(TURNS):
        for name, words in commands.items():
            old = least[name]
            if not turn or old.is_whole and old.processor < LONG:
                new = run(words, runs)
                least[name] = Cost(min(old.processor, new.processor), min(old.wall, new.wall), new.faults, new.is_whole)
    return least


def done(words: list[str]) -> str:
    """What a command prints that has to end well."""
    found = subprocess.run(words, stdout=subprocess.PIPE, stderr=subprocess.PIPE, text=True, check=False)
    if found.returncode:
        sys.exit(f"costs.py: {' '.join(words)}: {found.stderr.strip() or found.returncode}")
    return found.stdout


def built(source: str, folder: str, name: str, *options: str) -> str:
    path = os.path.join(folder, name)
    done([*GCC, *options, "-o", path, source])
    return path


def original(source: str, folder: str) -> str:
    path = os.path.join(folder, "original")
    return path if os.path.exists(path) else built(source, folder, "original", "-static", "-no-pie")


def stand_in(source: str, *choice: str) -> Callable[[str], list[str]]:
    def build(folder: str) -> list[str]:
        path = os.path.join(folder, "-".join(("stand-in", *choice)))
        done([VAKNUHOL, "wrap", *choice[:-1], original(source, folder), choice[-1], "--keep", "1",
              "--into", f"{path}.vak", "-o", path])
        return [path]
    return build


def under(source: str, *words: str) -> Callable[[str], list[str]]:
    """The original under a tool; FOLDER in its words is the folder for what it writes."""
    return lambda folder: [*(word.replace("FOLDER", folder) for word in words), original(source, folder)]


def our_tools(source: str) -> list[Tool]:
    def ours(records: str, *choice: str) -> Tool:
        return Tool(" ".join(choice), records, "python3", "python3", stand_in(source, *choice))

    return [
        ours("which own blocks ran", "cover", "--own"),
        ours("how often each own block ran", "count", "--own"),
        ours("the same counts, with fewer sites", "count", "--fast", "--own"),
        ours("the last 100 own blocks", "ring", "100", "--own"),
        ours("calls, the C library's too", "count", "--functions"),
        ours("how often each block ran, the C library's too", "count", "--blocks"),
        ours("the same counts, with fewer sites", "count", "--fast", "--blocks"),
    ]


def other_tools(source: str, function: str) -> list[Tool]:
    gdb = ["gdb", "-q", "-batch", "-ex", f"break {function}", "-ex", "ignore 1 1000000000", "-ex", "run"]
    return [
        Tool("gcov", "own lines and branches; built with `--coverage`", "gcov", "gcc",
             lambda folder: [built(source, folder, "counted", "--coverage", "-static", "-no-pie")]),
        Tool("perf record", "samples", "perf", "linux-perf",
             under(source, "perf", "record", "-q", "-o", "FOLDER/perf.data", "--")),
        Tool("uftrace record", "each call with its time; built with `-pg`", "uftrace", "uftrace",
             lambda folder: ["uftrace", "record", "-d", f"{folder}/uftrace", built(source, folder, "traced", "-pg")]),
        Tool("qemu-x86_64", "nothing: emulation alone", "qemu-x86_64", "qemu-user", under(source, "qemu-x86_64")),
        Tool("callgrind", "how often each instruction ran, calls", "valgrind", "valgrind",
             under(source, "valgrind", "--tool=callgrind", "--callgrind-out-file=FOLDER/callgrind.out")),
        Tool("gdb", f"calls of `{function}`, by an ignored breakpoint", "gdb", "gdb", under(source, *gdb)),
        Tool("drrun -t drcov", "which blocks ran", "drrun", "DynamoRIO; not in Debian 12",
             under(source, "drrun", "-t", "drcov", "--")),
    ]


def model() -> str:
    """The name of this machine's processor."""
    with open("/proc/cpuinfo", encoding="ascii", errors="replace") as file:
        found = re.search(r"^model name\s*: (.*)$", file.read(), re.M)
    return re.sub(r"\(R\)|\(TM\)", "", found.group(1)) if found else os.uname().machine


def section(source: str, least: dict[str, Cost], columns: tuple[list[Tool], list[Tool]]) -> str:
    """README's section: how it was measured, and the factors."""
    is_busy = least[""].wall > BUSY * least[""].processor
    text = (f"Processor time of a run, as a factor of the original's {least[''].processor:.2f} s: "
            f"`{os.path.relpath(source, TOP)}` ({' '.join(GCC)}) sorts, counts divisors and sieves. The least of "
            f"{TURNS} runs, in turns with the others{', while other programs ran' if is_busy else ''}; {model()}, "
            f"Linux {'.'.join(os.uname().release.split('.')[:2])}. Patching and showing the record are left out. "
            f"`bench/costs.py` makes this section, and measures any C program in this way.")
    cells = [[f"`{tool.name}`: {tool.records} | {least[tool.name].times(least[''])}" for tool in column]
             for column in columns]
    rows = [f"| {ours} | {other} |" for ours, other in itertools.zip_longest(*cells, fillvalue="|")]
    table = ["| vaknuhol: what it records | Times | Other tools | Times |", "|---|---|---|---|", *rows]
    return "\n".join([textwrap.fill(text, WIDTH, break_on_hyphens=False), "", *table, ""])


def show_tools(source: str, function: str, runs: int, arguments: list[str], is_written: bool) -> None:
    """Prints README's section, or writes it."""
    found = [*our_tools(source), *other_tools(source, function)]
    rows = [tool for tool in found if shutil.which(tool.needs)]
    for tool in found:
        if tool not in rows:
            print(f"costs.py: {tool.needs} isn't here ({tool.package})", file=sys.stderr)
    with tempfile.TemporaryDirectory() as folder:
        commands = {"": [original(source, folder), *arguments]}
        commands |= {tool.name: [*tool.build(folder), *arguments] for tool in rows}
        least = measured(commands, runs)
    columns = [tool for tool in rows if tool.needs == "python3"], [tool for tool in rows if tool.needs != "python3"]
    text = section(source, least, columns)
    if is_written:
        with open(README, "r+", encoding="utf-8") as file:
            page = SECTION.sub(lambda _: text, file.read())
            file.seek(0)
            file.truncate()
            file.write(page)
    else:
        print(text, end="")


def show_commands(commands: dict[str, list[str]], runs: int) -> None:
    """Prints a line for each command."""
    least = measured(commands, runs)
    base = next(iter(least.values()))
    for name, cost in least.items():
        print(f"{name:24} {1000 * cost.processor:10.2f} ms {cost.times(base):>8} times "
              f"{1000 * cost.wall:10.2f} ms by the clock {cost.faults:8} page faults")


def main() -> None:
    own, arguments = sys.argv[1:], []
    if "--" in own:
        place = own.index("--")
        own, arguments = own[:place], own[place + 1:]
    parser = argparse.ArgumentParser(usage="costs.py [--write] [-n RUNS] [SOURCE.c [FUNCTION] | NAME=COMMAND..] "
                                     "[-- ARGUMENTS]", description=__doc__,
                                     formatter_class=argparse.RawDescriptionHelpFormatter)
    parser.add_argument("--write", action="store_true", help="put the section into README.md")
    parser.add_argument("-n", type=int, default=1, dest="runs", help="runs in a turn")
    parser.add_argument("given", nargs="*")
    words = parser.parse_args(own)
    ctypes.CDLL(None).prctl(SET_CHILD_SUBREAPER, 1, 0, 0, 0)
    if words.given and "=" in words.given[0]:
        named = (given.split("=", 1) for given in words.given)
        show_commands({name: [*command.split(), *arguments] for name, command in named}, words.runs)
    else:
        usual = os.path.join(TOP, "bench", "costs.c"), "divisors_of"
        source, function = [*words.given, *usual[len(words.given):]][:2]
        show_tools(os.path.abspath(source), function, words.runs, arguments, words.write)


if __name__ == "__main__":
    main()
