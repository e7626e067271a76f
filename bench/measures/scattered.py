"""What `load` takes for sites whose trampolines lie scattered, and what many runs of pages cost a program's start."""
import os
import sys

from measures.running import BENCH, Bench, milliseconds, point, table

NUMBERS = (8192, 16384, 32768, 65396)
# so many runs of pages that `patch` writes a program header for each, and more
RUNS = (500, 3000, 30000)


def write_far(bench: Bench, number: int) -> None:
    """A program with so many sites, each of whose jumps reaches 256 addresses of a page of its own."""
    bench.done([sys.executable, os.path.join(BENCH, "far_runs.py"), str(number), "file", "starts", "sites"])


def scattered(bench: Bench) -> list[str]:
    """By the number of sites; below each time its growth above the first, and n log n's."""
    columns, first = [], 0.0
    for number in NUMBERS:
        write_far(bench, number)
        taken = bench.took([bench.tool, *"load file starts sites cover out report".split()])
        first = first or taken.seconds
        ideal = number * (number - 1).bit_length() / (NUMBERS[0] * (NUMBERS[0] - 1).bit_length())
        columns.append((f"{milliseconds(taken.seconds)}, {taken.mib:.0f}", f"{taken.seconds / first:.1f}, {ideal:.1f}"))
    times, growths = zip(*columns)
    head = " | ".join(["Sites, a page each", *(f"{number:,}" for number in NUMBERS)])
    return table(head, [["`load`, ms, MiB", *times], ["growth of the time, of n log n", *growths]])


def least_times(told: str) -> list[float]:
    """Milliseconds of the programs of least_time, each of which has to end well."""
    lines = [line.split() for line in told.splitlines()]
    if any(line[3] != "0" for line in lines):
        sys.exit(f"speed.py: a program failed: {told}")
    return [float(line[0]) for line in lines]


def runs(bench: Bench) -> list[str]:
    """By the number of runs of pages: the original, and as `patch` and `load` write it."""
    found = []
    timer = bench.compiled("least_time.c", "-O1")
    for number in RUNS:
        write_far(bench, number)
        programs = ["file"]
        for command in ("patch", "load"):
            words = [bench.tool, command, "file", "starts", "sites", "cover", command, "report"]
            bench.done(words, (0, 1, 3))
            programs += [command] if os.path.exists(bench.path(command)) else []
        for name in programs:
            os.chmod(bench.path(name), 0o755)
        told = bench.done([timer, "30", *(bench.path(it) for it in programs)])
        least = dict(zip(programs, least_times(told)))
        cells = (f"{least[it]:.2f}" if it in least else "not written" for it in ("file", "patch", "load"))
        found.append(f"{number:,} runs {', '.join(cells)}")
        for name in programs:
            os.remove(bench.path(name))
    return point("**A start by runs of pages**, ms by the clock, of the original, the file by `patch` and the file by "
                 f"`load`: {'; '.join(found)}.")
