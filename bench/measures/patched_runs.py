"""What a patched program's run takes: an event's jumps, what the runner adds, and README's table of other tools."""
import os
import shutil
import sys

from measures.running import BENCH, NONE, TOP, Bench, point
from measures.scattered import least_times

VAKNUHOL = os.path.join(TOP, "bin", "vaknuhol")
NOTHING = "int main(void) { return 0; }\n"


def events(bench: Bench) -> list[str]:
    """By the number of blocks that are run in turn, each with an event."""
    told = bench.done([bench.compiled("event_jumps.c")]).splitlines()
    found = []
    for line in told[1:]:
        blocks, plain, *others = line.split()
        found.append(f"{int(blocks):,} blocks {', '.join(f'{float(it) - float(plain):.1f}' for it in others)}")
    return point("**An event**, ns by its two jumps alone, for `cover` and for `count`, by the number of blocks that "
                 f"run in turn: {'; '.join(found)}.")


def starts(bench: Bench) -> list[str]:
    """A program that does nothing: by the clock, from before it is started until it has ended."""
    bench.write("nothing.c", NOTHING)
    program = bench.compiled(bench.path("nothing.c"), "-static", "-no-pie", "-O1")
    os.environ["E9TOOL"] = bench.tool
    stand_in, folder = bench.path("stand-in"), bench.path("nothing.vak")
    bench.done([VAKNUHOL, "wrap", "count", program, "--functions", "--keep", "1", "--into", folder, "-o", stand_in])
    patch_only = ["--patch-only", "--into", bench.path("only.vak")]
    patched = bench.done([VAKNUHOL, "count", "--functions", *patch_only, program]).split("\n")
    timer = bench.compiled("least_time.c", "-O1")
    others = {
        "`perf record`": ["perf", "record", "-q", "-o", "perf.data", program],
        "`qemu-x86_64`": ["qemu-x86_64", program],
        "`valgrind --tool=none`": ["valgrind", "-q", "--tool=none", program],
        "`gdb`": ["gdb", "-q", "-batch", "-ex", "run", program],
    }
    path = next(it for it in patched if os.path.exists(it))
    names = {"as it is": program, "patched": path, "as a stand-in": stand_in}
    for name, words in others.items():
        if shutil.which(words[0]):
            names[name] = bench.path(words[0])
            bench.write(words[0], f"#!/bin/sh\nexec {shutil.which(words[0])} {' '.join(words[1:])}\n")
            os.chmod(names[name], 0o755)
    least = dict(zip(names, least_times(bench.done([timer, "20", *names.values()]))))
    found = [f"{it} {least[it]:.2f}" for it in names] + [f"{it} {NONE}" for it in others if it not in names]
    return point(f"**A program that does nothing**, ms by the clock: {'; '.join(found)}.")


def factors(bench: Bench) -> list[str]:
    """README's section, which costs.py makes."""
    os.environ["E9TOOL"] = bench.tool
    return bench.done([sys.executable, os.path.join(BENCH, "costs.py")]).splitlines()
