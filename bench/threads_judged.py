#!/usr/bin/env python3
"""threads_judged.py [PROGRAM..]: runs of programs with threads, each judged by the premises of the theorem on threads.

The programs of threads/ (all, or those that are named) are built static, patched for threads, and stepped once by
`scripts/replay_run.py --threads`. A row for each: what it records and where; how many steps, threads, events and deliveries its run
has; of how many steps the theorem speaks, and why of no more; what broke a premise, or made answers doubtful. Each has to print what
the original prints. Needs gcc, g++, musl-gcc and rustc; $E9TOOL names the program that patches."""
import os
import re
import subprocess
import sys
import tempfile
from typing import NamedTuple

BENCH = os.path.dirname(os.path.realpath(__file__))
REPLAY = os.path.join(BENCH, "..", "scripts", "replay_run.py")
STATIC, FULL = "-O2 -g -static -no-pie", "-g -static -no-pie -nostdlib -ffreestanding -fno-stack-protector"
BARE = f"gcc -O2 {FULL} -fno-tree-loop-distribute-patterns bare.c -D"
MUSL, GLIBC = f"musl-gcc {STATIC} pthreads.c -D", f"gcc {STATIC} -pthread pthreads.c -D"
RUST = "rustc -O -C target-feature=+crt-static -C relocation-model=static standard.rs"
COUNT, COVER, RING = "--count", "", "--ring 9"


class Row(NamedTuple):
    """A program: how it is built, what its run records, with which sites."""
    build: str
    words: str
    condition: str = ""


ROWS = {
    "bare": Row(f"{BARE}ALL", f"{COUNT} --blocks"), "bare, none": Row(f"{BARE}NONE", f"{RING} --blocks"),
    "bare, in turn": Row(f"{BARE}SECOND", "--blocks"), "bare, when": Row(f"{BARE}ALL", "--blocks", "rcx > 0"),
    "none": Row(f"{MUSL}NONE", COUNT), "late": Row(f"{MUSL}LATE", COVER), "mutex": Row(f"{MUSL}MUTEX", f"{COUNT} --blocks"),
    "condition": Row(f"{MUSL}CONDITION", COUNT, "rax < 99"), "barrier": Row(f"{MUSL}BARRIER", RING),
    "locals": Row(f"{MUSL}LOCALS", COUNT), "detached": Row(f"{MUSL}DETACHED", RING), "pool": Row(f"{MUSL}POOL", COUNT),
    "readers": Row(f"{MUSL}READERS", COVER), "signals": Row(f"{MUSL}SIGNALS", COVER),
    "waits for signals": Row(f"{MUSL}WAITS_FOR_SIGNALS", COVER), "timer": Row(f"{MUSL}TIMER", COVER),
    "cancelled": Row(f"{MUSL}CANCELLED", COVER), "spins": Row(f"{MUSL}SPINS", COVER, "rsi != 1"),
    "forks": Row(f"{MUSL}FORKS", COVER), "crashes": Row(f"{MUSL}CRASHES", RING),
    "mutex, glibc": Row(f"{GLIBC}MUTEX", f"{COUNT} --symbols work|add|main"),
    "C++": Row(f"g++ -std=c++20 {STATIC} -pthread standard.cc", "--symbols main"),
    "Rust": Row(RUST, "--symbols .*main.*"), "OpenMP": Row(f"gcc {STATIC} -fopenmp parallel.c", f"{COUNT} --symbols main|fib"),
}
LENGTH = re.compile(r"([0-9]+) steps of ([0-9]+) threads?, ([0-9]+) events, ([0-9]+) deliveries")
REACH = re.compile(r"the theorem speaks of (?:the first ([0-9]+), ([^;]+)|all of them)")
WHY = re.compile(r"(BROKEN|MAY HAVE GONE ANOTHER WAY).*?(step [0-9]+, of thread [0-9]+, at [0-9a-f]+, .*?)(?: \([0-9]+ steps|: an event)")


def judge(row: Row, folder: str) -> tuple[list[str], str]:
    """The cells of a run's row, and what is to be said below the table."""
    program = f"{folder}/program"
    compiler, *words = row.build.split()
    words = [f"{BENCH}/threads/{word}" if word.endswith((".c", ".cc", ".rs")) else word for word in words]
    subprocess.run([compiler, *words, "-o", program], check=True, stderr=subprocess.DEVNULL)
    original = subprocess.run([program], capture_output=True, text=True, timeout=60)
    asked = [*row.words.split(), *(["--when", row.condition] if row.condition else [])]
    judged = subprocess.run([sys.executable, REPLAY, "--threads", *asked, program], capture_output=True, text=True)
    *printed, verdict = judged.stdout.splitlines() or [judged.stderr]
    length, reach, why = LENGTH.search(verdict), REACH.search(verdict), WHY.search(verdict)
    if not length or not reach or judged.returncode not in (0, 1):
        sys.exit(f"{row}: {judged.stdout}{judged.stderr}")
    if printed != original.stdout.splitlines() and not why:
        sys.exit(f"{row}: the original prints {original.stdout!r}, and the patched file {printed}")
    return ([" ".join(asked) or "cover", *length.groups(), reach[1] or length[1], reach[2] or "whole"],
            f"{why[1]}: {why[2]}" if why else "")


def main() -> None:
    unknown = set(sys.argv[1:]) - set(ROWS)
    if unknown:
        sys.exit(f"no such program: {', '.join(sorted(unknown))}; there are {', '.join(ROWS)}")
    print("| Program | Records | Steps | Threads | Events | Deliveries | The theorem speaks of | Up to |")
    print("|" + "---|" * 8)
    below = []
    for name in sys.argv[1:] or ROWS:
        with tempfile.TemporaryDirectory() as folder:
            cells, why = judge(ROWS[name], folder)
        print("|", " | ".join([name, *cells]), "|", flush=True)
        below += [f"{name}: {why}"] if why else []
    print(*below, sep="\n")


if __name__ == "__main__":
    main()
