#!/usr/bin/env python3
"""Static PIEs of many compilers, and Debian's own, of which the page on programs speaks.

    static_pies.py [--jobs N] [--keep FOLDER] [NAME]...

Each is patched at all its blocks (QEMU at its functions) to count, to keep a ring and to cover, and once more to count in the loader
form; for threads where it starts some; in several files, and with rings of parts, where it has more blocks than a file may have
sites. Each of these runs has to have the output and the status of the program itself, `check` has to say of each patched file that
it is sound, and `unpatch` has to give the program back, byte for byte, as has `unsettle` of its settled file. Where the program has
one process and thread, the counts are compared with its single steps at the same base (count_steps.c), in the same surroundings:
file names as long, addresses not random. A row for each program:

    blocks, and how many are left, also in the loader form; blocks whose count is that of the single steps, of those with a count;
    `the same` where all runs were, or what wasn't.

What can't be made here says why. The exit status is 1 where something wasn't the same. $E9TOOL names the program that patches.
"""
import argparse
import concurrent.futures
import glob
import os
import re
import shlex
import shutil
import subprocess
import sys
import tempfile
from typing import NamedTuple

from debian_programs import unpacked
from static_programs import PATCHED, SECONDS, TOP, call, last_line, vaknuhol
from vaknuhol.messages import counted
from vaknuhol.recording.patching import find_tool
from vaknuhol.recording.record_file import Record

PIE, LIBC, MUSL, QEMU = "-fPIE -static-pie", "libc-bin", "musl-dev", "qemu-user-static"
LIBS = "{musl}/lib/x86_64-linux-musl"
OF_MUSL = (f"gcc -O2 {PIE} -nostdinc -isystem {{musl}}/include/x86_64-linux-musl -isystem $(gcc -print-file-name=include) -nostdlib"
           f" -L{LIBS} -o {{out}} {LIBS}/rcrt1.o {LIBS}/crti.o {{source}} -lc -lgcc -lgcc_eh -lc {LIBS}/crtn.o")
RUST = "rustc -O -C target-feature=+crt-static -o {out} {source}"
GO = "CGO_ENABLED=1 go build -buildmode=pie -ldflags '-linkmode external -extldflags -static-pie' -o {out} {source}"
FEW = 24  # program headers: fewer than a table of all pages with new code has
WAYS = {"count": ["count"], "ring": ["ring", "100"], "cover": ["cover"], "loader form": ["count", "--entries", str(FEW), "--into", "loader"]}
ALONE, MANY = "alone", "many"  # whether each run goes the same way, in one thread
HEAD = "| Program | Blocks | Left | Left in the loader form | Counts of the single steps | Its runs |\n|---|---|---|---|---|---|"


class Case(NamedTuple):
    """A program: how it is made of a source below the top, or of which package it is taken, and the words of its run."""
    name: str
    source: str
    command: str
    words: tuple[str, ...] = ()
    kind: str = ALONE
    choice: str = "--blocks"


CASES = [
    *(Case(f"gcc {level}", "bench/static/work.c", f"gcc {level} {PIE} -o {{out}} {{source}}") for level in ("-O0", "-O2", "-Os")),
    Case("gcc -flto", "bench/static/work.c", f"gcc -O2 -flto {PIE} -o {{out}} {{source}}"),
    Case("gcc, stripped", "bench/static/work.c", f"gcc -O2 -s {PIE} -o {{out}} {{source}}"),
    Case("gcc, RELR", "bench/static/work.c", f"gcc -O2 {PIE} -Wl,-z,pack-relative-relocs -o {{out}} {{source}}"),
    Case("gcc, -z noseparate-code", "bench/static/work.c", f"gcc -O2 {PIE} -Wl,-z,noseparate-code -o {{out}} {{source}}"),
    Case("gcc, -z norelro", "bench/static/work.c", f"gcc -O2 {PIE} -Wl,-z,norelro -o {{out}} {{source}}"),
    Case("gcc, SipHash of libcrypto", "bench/static/digests.c", f"gcc -O2 {PIE} -o {{out}} {{source}} -lcrypto"),
    Case("gcc, signals of a timer", "scripts/tests/signals.c", f"gcc -O2 {PIE} -pthread -o {{out}} {{source}}", ("nested",), MANY),
    Case("gcc, faults and siglongjmp", "scripts/tests/signals.c", f"gcc -O2 {PIE} -pthread -o {{out}} {{source}}", ("repeatable",)),
    Case("gcc, threads, TLS", "bench/threads/pthreads.c", f"gcc -O2 -DLOCALS {PIE} -pthread -o {{out}} {{source}}", (), MANY),
    Case("gcc, threads, signals", "bench/threads/pthreads.c", f"gcc -O2 -DSIGNALS {PIE} -pthread -o {{out}} {{source}}", (), MANY),
    Case("clang", "bench/static/work.c", f"clang -O2 {PIE} -o {{out}} {{source}}"),
    Case("clang, lld", "bench/static/work.c", f"clang -O2 {PIE} -fuse-ld=lld -o {{out}} {{source}}"),
    Case("clang, lld, RELR", "bench/static/work.c", f"clang -O2 {PIE} -fuse-ld=lld -Wl,--pack-dyn-relocs=relr -o {{out}} {{source}}"),
    Case("g++, exceptions", "bench/static/work.cc", f"g++ -O2 {PIE} -o {{out}} {{source}}"),
    Case("g++, threads", "bench/threads/standard.cc", f"g++ -std=c++20 -O2 {PIE} -pthread -o {{out}} {{source}}", (), MANY),
    Case("clang++, lld, exceptions", "bench/static/work.cc", f"clang++ -std=c++20 -O2 {PIE} -fuse-ld=lld -o {{out}} {{source}}"),
    Case("musl", "bench/static/work.c", OF_MUSL),
    Case("musl, faults and siglongjmp", "scripts/tests/signals.c", OF_MUSL, ("repeatable",)),
    Case("musl, threads, TLS", "bench/threads/pthreads.c", f"{OF_MUSL} -DLOCALS", (), MANY),
    Case("Rust", "bench/static/work.rs", RUST),
    Case("Rust, threads", "bench/threads/standard.rs", RUST, (), MANY),
    Case("Go", "bench/static/work.go", GO, (), MANY),
    Case("`ldconfig` of libc-bin", "", f"{LIBC} sbin/ldconfig", ("-p",)),
    Case(f"`qemu-x86_64-static` of {QEMU}", "bench/static/work.c", f"{QEMU} usr/bin/qemu-x86_64-static", ("./guest",), MANY, "--functions"),
    *(Case(f"`{name}` of {QEMU}", "", f"{QEMU} usr/bin/{name}", ("--version",), MANY, "--functions")
      for name in ("qemu-aarch64-static", "qemu-riscv64-static")),
]


def make(case: Case, folder: str, packages: dict[str, str]) -> str:
    """Puts the program into the folder; where that fails, why. What QEMU runs is made of the source beside it."""
    package, _, path = case.command.partition(" ")
    command = case.command.format(out="program", source=os.path.join(TOP, case.source), musl=f"{packages.get(MUSL, '')}/usr")
    if package in packages:
        shutil.copy(os.path.join(packages[package], path), f"{folder}/program")
        command = f"gcc -O2 -static -no-pie -o guest {TOP}/{case.source}" if case.source else "true"
    done = subprocess.run(command, shell=True, cwd=folder, capture_output=True, text=True, errors="replace", check=False)
    return f"can't be made here: {last_line(done.stderr)}" if done.returncode else ""


def run_of(folder: str, case: Case) -> tuple[int, bytes]:
    return call(["./program", *case.words], folder)[:2]


class Tried:
    """What was found of a program: its cells, and what wasn't as it has to be."""

    def __init__(self, case: Case, folder: str) -> None:
        self.case, self.folder = case, folder
        self.wanted = run_of(folder, case)
        self.faults: list[str] = []
        self.cells: list[str] = []

    def try_way(self, name: str, *words: str) -> str:
        """Runs it as it is patched in a way; what is told of that."""
        status, output, told = vaknuhol(self.folder, *words, self.case.choice, "--record", f"{name}.record", "./program", "--",
                                        *self.case.words)
        if not PATCHED.search(told) and (parts := re.findall("--within ([0-9a-f]+-[0-9a-f]+)", told)):
            return "".join(self.try_way(name, *words, "--within", part) for part in parts)
        if (status, output) != self.wanted or not PATCHED.search(told) or name == "loader form" and "in the loader form" not in told:
            self.faults.append(f"{name}: {last_line(told)}")
        return told

    def try_ways(self) -> None:
        sizes = {}
        for name, words in WAYS.items():
            numbers = PATCHED.findall(self.try_way(name, *words))
            sizes[name] = sum(int(some) for some, _ in numbers), sum(int(whole) for _, whole in numbers)
        blocks = sizes["count"][1]
        self.cells += [f"{blocks:,}", f"{blocks - sizes['count'][0]:,}", f"{blocks - sizes['loader form'][0]:,}"]

    def patched(self, folder: str, ending: str = "*.patched") -> list[str]:
        return sorted(glob.glob(f"{glob.escape(self.folder)}/{folder}/*/{ending}"))

    def check(self) -> None:
        """Each patched file is sound, and gives the program back."""
        for folder in ("program.vak", "loader"):
            status, output, told = vaknuhol(self.folder, "check", "program", "--into", folder)
            if status or output.count(b"\n") != len(self.patched(folder)):
                self.faults.append(f"check: {last_line(output.decode() + told)}")
        with open(f"{self.folder}/program", "rb") as file:
            own = file.read()
        patched = self.patched("*")
        if len(patched) < len(WAYS) or any(vaknuhol(self.folder, "unpatch", path, "-")[1] != own for path in patched):
            self.faults.append("unpatch")
        call([find_tool(), "unsettle", "program.vak/settled/program", "unsettled"], self.folder)
        with open(f"{self.folder}/unsettled", "rb") as file:
            if file.read() != own:
                self.faults.append("unsettle")

    def compare_steps(self, stepper: str) -> None:
        """How many counts are those of the single steps of the settled file, where both run under names as long."""
        same = blocks = 0
        for of_run in self.patched("program.vak", "*.count.run"):
            stem = of_run.removesuffix(".count.run")
            shutil.copy(f"{self.folder}/program.vak/settled/program", f"{stem}.stepped")
            still = ["setarch", "-R", sys.executable, os.path.join(TOP, "scripts", "run_and_record.py")]
            call([*still, f"{stem}.report", f"{self.folder}/again", f"{stem}.patched", *self.case.words], self.folder)
            rows = [row for row in Record(f"{self.folder}/again").rows if row.count is not None]
            with open(f"{self.folder}/addresses", "w", encoding="ascii") as file:
                file.writelines(f"{row.first:x}\n" for row in rows)
            call([stepper, "addresses", "steps", f"{stem}.stepped", *self.case.words], self.folder)
            with open(f"{self.folder}/steps", encoding="ascii") as file:
                steps = {int(addr, 16): int(count) for addr, count in map(str.split, file)}
            same, blocks = same + sum(steps[row.first] == row.count for row in rows), blocks + len(rows)
        self.cells.append(f"{same:,} of {blocks:,}")

    def row(self) -> str:
        return f"| {self.case.name} | {' | '.join(self.cells)} | {'; '.join(self.faults) or 'the same'} |"


def row_of(case: Case, top: str, packages: dict[str, str], stepper: str) -> tuple[str, bool]:
    """The row of a program, and whether something wasn't the same."""
    folder = os.path.join(top, re.sub("[^A-Za-z0-9+.-]+", "-", case.name))
    os.makedirs(folder, exist_ok=True)
    if why := make(case, folder, packages):
        return f"| {case.name} | | | | | {why} |", False
    tried = Tried(case, folder)
    try:
        tried.try_ways()
        tried.check()
        if case.kind == ALONE:
            tried.compare_steps(stepper)
        else:
            tried.cells.append("")
    except subprocess.TimeoutExpired as error:
        tried.faults.append(f"no end after {SECONDS} s: {shlex.join(error.cmd)}")
    return tried.row(), bool(tried.faults)


def main() -> None:
    parser = argparse.ArgumentParser(description=__doc__, formatter_class=argparse.RawDescriptionHelpFormatter)
    parser.add_argument("--jobs", type=int, default=1, help="how many programs are tried at a time")
    parser.add_argument("--keep", metavar="FOLDER", help="where the programs and what is patched of them stay")
    parser.add_argument("names", nargs="*", metavar="NAME", help="programs by the names of their rows; without any, all of them")
    words = parser.parse_args()
    named = {case.name: case for case in CASES}
    if unknown := set(words.names) - named.keys():
        sys.exit(f"no such program: {', '.join(sorted(unknown))}; there are {', '.join(map(shlex.quote, named))}")
    chosen = [named[name] for name in words.names or named]
    with tempfile.TemporaryDirectory() as other, concurrent.futures.ThreadPoolExecutor(words.jobs) as pool:
        top = os.path.abspath(words.keep or other)
        stepper = os.path.join(top, "count_steps")
        os.makedirs(top, exist_ok=True)
        subprocess.run(["gcc", "-O1", "-o", stepper, os.path.join(TOP, "bench", "count_steps.c")], check=True)
        packages = {}
        for package in {MUSL if "{musl}" in case.command else case.command.partition(" ")[0] for case in chosen} & {LIBC, MUSL, QEMU}:
            os.makedirs(f"{top}/{package}", exist_ok=True)
            packages[package] = unpacked(package, f"{top}/{package}")
        print(HEAD, flush=True)
        faults = 0
        for row, is_fault in pool.map(lambda case: row_of(case, top, packages, stepper), chosen):
            print(row, flush=True)
            faults += is_fault
    print(f"{counted(len(chosen), 'program')}, of which {faults} had another run")
    sys.exit(faults > 0)


if __name__ == "__main__":
    main()
