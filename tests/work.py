#!/usr/bin/env python3
"""Counts the processor's instructions that commands take, and their peak memory, and fails where one is above its ceiling.

The figures of tests/work.txt are those of the program that they were last measured with. The ceiling of instructions is a tenth above,
that of peak memory a twentieth. Instructions are counted by valgrind's callgrind, which gives the same from run to run; peak memory is what
the system reports of a run without callgrind, and varies by a hundredth. Another C library or processor changes both a little. `--measure`
measures them anew and writes tests/work.txt: do so if a change of the program is meant to cost, and say why in the commit.

The exit status is 1 if a figure is above its ceiling, a command answers something else or valgrind is missing (with
VAKNUHOL_TESTS_MAY_SKIP=1 the memory alone is then measured), and 2 if the program is missing.
"""
import argparse
import os
import shutil
import subprocess
import sys
import tempfile
from concurrent.futures import ThreadPoolExecutor

from made_rows import TESTS
from work_cases import COUNTED, HELD, Work

FIGURES = f"{TESTS}/work.txt"
HANGS = 3600  # seconds: a command that takes longer has hung, however busy the machine is
# ceilings as parts of a hundred of their figures; a text of STARTS that is held too long is a tenth of the peak with as many starts
CEILINGS = {"instructions": 110, "KiB": 105}
KINDS = {"instructions": COUNTED, "KiB": HELD}
# prints the status and the peak memory of the command that its words are, which gets no huge pages (PR_SET_THP_DISABLE)
LAUNCHER = """
import ctypes, os, sys
ctypes.CDLL(None).prctl(41, 1, 0, 0, 0)
nothing = [(os.POSIX_SPAWN_OPEN, 1, os.devnull, os.O_WRONLY, 0)]
child = os.posix_spawn(sys.argv[1], sys.argv[1:], os.environ, file_actions=nothing)
_, status, used = os.wait4(child, 0)
print(os.waitstatus_to_exitcode(status), used.ru_maxrss)
"""
# what each run has of the environment: no language
ENVIRONMENT = {"PATH": "/usr/bin:/bin"}


def fail(work: Work, done: subprocess.CompletedProcess[bytes]) -> None:
    raise AssertionError(f"{work.name} ended with {done.returncode}: {done.stdout[-300:]!r} {done.stderr[-300:]!r}")


def prepare(program: str, work: Work, folder: str) -> None:
    """Writes the inputs, and runs the command before."""
    for name, data in work.inputs().items():
        with open(f"{folder}/{name}", "wb") as file:
            file.write(data)
    if work.before:
        done = subprocess.run([program, *work.before.split()], cwd=folder, capture_output=True, timeout=HANGS)
        if done.returncode:
            fail(work, done)


def instructions(program: str, work: Work, folder: str) -> int:
    """How many instructions the command takes, with the start of the process."""
    counts = f"{folder}.counts"
    words = ["valgrind", "--tool=callgrind", f"--callgrind-out-file={counts}", program, *work.words.split()]
    done = subprocess.run(words, cwd=folder, env={**ENVIRONMENT, **work.environment}, capture_output=True, timeout=HANGS)
    if done.returncode != work.status:
        fail(work, done)
    with open(counts, encoding="ascii") as file:
        found = [int(line.split()[1]) for line in file if line.startswith("summary: ")]
    os.remove(counts)
    return found[0]


def peak(program: str, work: Work, folder: str) -> int:
    """The peak memory of the command, in KiB. A process that starts counts the memory of the one that started it, so a small one does."""
    words = [sys.executable, "-I", "-S", "-c", LAUNCHER, program, *work.words.split()]
    done = subprocess.run(words, cwd=folder, env={**ENVIRONMENT, **work.environment}, capture_output=True, timeout=HANGS)
    told = done.stdout.split()
    if done.returncode or int(told[0]) != work.status:
        fail(work, done)
    return int(told[1])


def measured(program: str, kind: str, work: Work) -> int:
    with tempfile.TemporaryDirectory() as scratch:
        folder = f"{scratch}/files"
        os.mkdir(folder)
        prepare(program, work, folder)
        return instructions(program, work, folder) if kind == "instructions" else peak(program, work, folder)


def read_figures() -> dict[tuple[str, str], int]:
    """The figures by kind and name, none where none were taken."""
    if not os.path.exists(FIGURES):
        return {}
    with open(FIGURES, encoding="ascii") as file:
        rows = [line.rstrip("\n").split(" ", 2) for line in file]
    return {(kind, name): int(figure) for figure, kind, name in rows}


def write_figures(found: dict[tuple[str, str], int]) -> None:
    """Writes those that were found, and of all others that are still asked the figures that stood there, in the order of the tables."""
    figures = {**read_figures(), **found}
    keys = [(kind, work.name) for kind, works in KINDS.items() for work in works]
    with open(FIGURES, "w", encoding="ascii") as file:
        file.writelines(f"{figures[key]} {key[0]} {key[1]}\n" for key in keys if key in figures)


def measure_all(program: str, kinds: dict[str, list[Work]], only: str, processes: int) -> dict[tuple[str, str], int]:
    asked = [(kind, work) for kind, works in kinds.items() for work in works if work.name.startswith(only)]
    with ThreadPoolExecutor(processes) as pool:
        return {(kind, work.name): figure for (kind, work), figure in zip(asked, pool.map(lambda it: measured(program, *it), asked))}


def main() -> None:
    parser = argparse.ArgumentParser(description=__doc__, formatter_class=argparse.RawDescriptionHelpFormatter)
    parser.add_argument("program", metavar="PROGRAM", help="crates/e9tool/out/e9tool, say")
    parser.add_argument("--measure", action="store_true", help="write the figures in place of comparing with them")
    parser.add_argument("--only", metavar="NAME", default="", help="only the commands whose names begin with NAME")
    parser.add_argument("--verbose", action="store_true", help="a line for each command")
    parser.add_argument("--processes", type=int, default=os.cpu_count() or 1, help="how many run at once")
    asked = parser.parse_args()
    program = os.path.realpath(asked.program)
    if not os.access(program, os.X_OK):
        print(f"work: {program} is not here", file=sys.stderr)
        sys.exit(2)
    kinds = KINDS if shutil.which("valgrind") else {"KiB": HELD}
    if kinds is not KINDS:
        print("work: NOT TRIED, instructions need valgrind (VAKNUHOL_TESTS_MAY_SKIP=1 lets that pass)")
        os.environ.get("VAKNUHOL_TESTS_MAY_SKIP") == "1" or sys.exit(1)
    found = measure_all(program, kinds, asked.only, asked.processes)
    if asked.measure:
        write_figures(found)
        return
    figures, above = read_figures(), 0
    for key, figure in found.items():
        of = 100 * figure / figures[key]
        is_above = of > CEILINGS[key[0]]
        above += is_above
        if is_above or asked.verbose:
            print(f"work: {key[1]}: {figure} {key[0]}, {of:.1f} % of {figures[key]}{' ABOVE ITS CEILING' * is_above}", flush=True)
    print(f"work: {len(found) - above} within their ceilings, {above} above")
    sys.exit(1 if above else 0)


if __name__ == "__main__":
    main()
