"""What `vaknuhol` takes for bash-static and a run of `echo`, beside tools that record and show such runs."""
import os
import shutil

from measures.running import NONE, TOP, Bench, Taken, cell, least_of, point

VAKNUHOL = os.path.join(TOP, "bin", "vaknuhol")
TURNS = 3


def sum_of(parts: list[Taken]) -> Taken:
    """What commands take one after another."""
    return Taken(sum(it.seconds for it in parts), sum(it.wall for it in parts), max(it.mib for it in parts), "")


def told(name: str, turns: list[Taken]) -> str:
    return f"{name} {cell(least_of(turns))}"


def ours(bench: Bench, program: str) -> list[str]:
    """Into new folders, and again where everything is kept."""
    os.environ["E9TOOL"] = bench.tool
    found, run = [], ["--", "-c", "echo"]
    for choice in ("--blocks", "--functions"):
        turns = []
        for turn in range(TURNS):
            folder = bench.path(f"{choice}{turn}.vak")
            turns.append(bench.once([VAKNUHOL, "count", choice, "--into", folder, program, *run]))
        found.append(told(f"`count {choice}`", turns))
    kept, last = ["--into", bench.path("--blocks0.vak")], bench.path("--blocks0.vak/last.record")
    again = [bench.once([VAKNUHOL, "count", "--blocks", *kept, program, *run]) for _ in range(TURNS)]
    shown = [bench.once([VAKNUHOL, "report", program, last]) for _ in range(TURNS)]
    return [*found, told("`count --blocks` with the patched file kept", again), told("`report` of its record", shown)]


def theirs(bench: Bench, program: str) -> list[str]:
    """Other tools: what they record, and what they print of it."""
    run = [program, "-c", "echo"]
    callgrind = ["valgrind", "--tool=callgrind", "--callgrind-out-file=callgrind.out", *run]
    perf = ["perf", "record", "-q", "-o", "perf.data", "--", *run]
    others = {
        "`objdump -d`": [["objdump", "-d", program]],
        "`callgrind` and its annotation": [callgrind, ["callgrind_annotate", "callgrind.out"]],
        "`perf record` and `report`": [perf, ["perf", "report", "--stdio", "-i", "perf.data"]],
    }
    return [told(name, [sum_of([bench.once(words) for words in parts]) for _ in range(TURNS)])
            if shutil.which(parts[0][0]) else f"{name} {NONE}" for name, parts in others.items()]


def commands(bench: Bench) -> list[str]:
    program = shutil.which("bash-static")
    if not program:
        return point(f"**bash-static with a run of `echo`**: {NONE}.")
    return point("**bash-static with a run of `echo`**, seconds and MiB, by `vaknuhol` into a new folder: "
                 f"{'; '.join(ours(bench, program))}. By other tools: {'; '.join(theirs(bench, program))}.")
