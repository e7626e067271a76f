#!/usr/bin/env python3
"""Static programs of many compilers, languages and C libraries, whole and stripped: patched, each runs as before.

    static_programs.py [--jobs N] [--steps N] [--keep FOLDER] [NAME]...

Makes each program of static/ by each compiler that is here, and takes the static programs of Debian that are installed. Each is run
under single steps (`vaknuhol fit`): each executed instruction has to be a listed start, and no listed byte may be read as data. Then it
is patched at all its blocks, and at its functions, and run: output and status have to be those of the original, of each file where the
blocks need several. A row for each program:

    instructions and blocks that are listed; bytes of the text that may be no code, or are data;
    single steps, and executed instructions that are not listed; whether listed bytes are read as data;
    blocks that are patched, and whether the run is the same; the same of functions.

What can't be made here, and what is refused, says why. The exit status is 1 where a row shows a fault. $E9TOOL names the program that
patches.
"""
import argparse
import concurrent.futures
import glob
import os
import re
import shlex
import shutil
import subprocess
import sys
import tempfile
from collections.abc import Iterator
from typing import NamedTuple, Optional

TOP = os.path.dirname(os.path.dirname(os.path.realpath(__file__)))
sys.path.insert(0, os.path.join(TOP, "scripts"))
from vaknuhol import native  # noqa: E402, its place is known only now

SOURCES = os.path.join(TOP, "bench", "static")
TEXT = "the quick brown fox jumps\nover the lazy dog 12 77\nalpha beta gamma delta\n7 14 21 3 4\n"
OF_MUSL = "-nostdinc -isystem /usr/include/x86_64-linux-musl"
STATIC, STEPS, SECONDS = "-static -no-pie", 400_000, 3600
SCRIPT = """i=0; while [ $i -lt 60 ]; do i=$((i+1)); case $i in *7) echo "seven $i";; *[05]) x="$x$i";; esac; done
f() { echo "f $1 ${1%.*}"; return 3; }; f a.b; echo "$x" | while read -r y; do echo "read $y"; done; for z in *.none; do echo "$z"; done; exit 9"""
# Each: how the source becomes {out}; {source} is of static/, and the folder is the program's own.
OF_C = {
    **{f"gcc{level}": f"gcc {level} {STATIC} -o {{out}} {{source}}" for level in ("-O0", "-O1", "-O2", "-O3", "-Os")},
    "gcc-lto": f"gcc -O2 -flto {STATIC} -o {{out}} {{source}}",
    "gcc-plain": f"gcc -O2 -fcf-protection=none -fno-asynchronous-unwind-tables {STATIC} -o {{out}} {{source}}",
    **{f"clang{level}": f"clang {level} -static -o {{out}} {{source}}" for level in ("-O0", "-O2", "-Os")},
    "tcc": f"tcc -c -o work.o {{source}} && gcc {STATIC} -o {{out}} work.o",
    "tcc-musl": f"tcc {OF_MUSL} -I/usr/lib/x86_64-linux-gnu/tcc/include -c -o work.o {{source}} && musl-gcc {STATIC} -o {{out}} work.o",
    **{f"musl{level}": f"musl-gcc {level} {STATIC} -o {{out}} {{source}}" for level in ("-O0", "-O2", "-O3", "-Os")},
    "clang-musl": f"clang -O2 {OF_MUSL} -c -o work.o {{source}} && musl-gcc {STATIC} -o {{out}} work.o",
    **{f"diet{level}": f"diet gcc {level} -o {{out}} {{source}}" for level in ("-O0", "-O2", "-Os")},
    "clang-diet": "diet clang -O2 -o {out} {source}",
    **{f"klibc{level}": f"klcc {level} -static -o {{out}} {{source}}" for level in ("-O0", "-O2", "-Os")},
}
OF_OTHERS = {
    "work.cc": {"g++-O0": f"g++ -O0 {STATIC} -o {{out}} {{source}}", "g++-O2": f"g++ -O2 {STATIC} -o {{out}} {{source}}",
                "clang++-O2": "clang++ -O2 -static -o {out} {source}"},
    "work.pas": {"fpc-O1": "fpc -v0 -O1 -FE. -o{out} {source}", "fpc-O3": "fpc -v0 -O3 -Xs- -FE. -o{out} {source}"},
    "hi.pas": {"fpc-hi": "fpc -v0 -FE. -o{out} {source}"},
    "work.f90": {"gfortran-O0": f"gfortran -O0 {STATIC} -o {{out}} {{source}}", "gfortran-O3": f"gfortran -O3 {STATIC} -o {{out}} {{source}}"},
    "work.ml": {"ocamlopt": f"cp {{source}} work.ml && ocamlopt -ccopt '{STATIC}' -o {{out}} work.ml"},
    "work.adb": {"gnat-O2": f"cp {{source}} work.adb && gnatmake -O2 work.adb -o {{out}} -bargs -static -largs {STATIC}"},
    "work.go": {"go": "CGO_ENABLED=0 go build -o {out} {source}", "go-bare": "CGO_ENABLED=0 go build -ldflags '-s -w' -o {out} {source}"},
    "work.rs": {"rustc-O": "rustc -O -C target-feature=+crt-static -C relocation-model=static -o {out} {source}",
                "rustc-debug": "rustc -C target-feature=+crt-static -C relocation-model=static -o {out} {source}",
                "rustc-musl": "rustc -O --target x86_64-unknown-linux-musl -C relocation-model=static -o {out} {source}"},
    "core.rs": {"rust-core-musl": "rustc --edition 2021 -O -C panic=abort -C relocation-model=static --crate-type staticlib -o core.a {source}"
                                  f" && musl-gcc {STATIC} -o {{out}} core.a"},
    "tables.asm": {"nasm": "nasm -f elf64 -o work.o {source} && ld -o {out} work.o"},
    "digests.c": {"libcrypto": f"gcc -O2 {STATIC} -o {{out}} {{source}} -lcrypto"},
}
STRIPPED = ("gcc-O2", "gcc-plain", "clang-O2", "tcc", "tcc-musl", "musl-O2", "clang-musl", "diet-Os", "klibc-O2", "g++-O2", "fpc-O3", "gfortran-O3", "ocamlopt", "gnat-O2",
            "rustc-O", "rust-core-musl", "nasm", "libcrypto")
# Debian's own static programs, with the words that they are run with.
INSTALLED = {
    "bash-static": ("/bin/bash-static", ["-c", SCRIPT]), "zsh-static": ("/bin/zsh-static", ["-f", "-c", SCRIPT]),
    "busybox-sh": ("/bin/busybox", ["sh", "-c", SCRIPT]), "busybox-awk": ("/bin/busybox", ["awk", '{ n += length($0); print NR, toupper($1) } END { print n / 7 }']),
    "busybox-sort": ("/bin/busybox", ["sort", "-r"]), "busybox-gzip": ("/bin/busybox", ["gzip", "-c"]),
    "mksh-static": ("/bin/mksh-static", ["-c", SCRIPT]), "lksh": ("/bin/lksh", ["-c", SCRIPT]), "sash": ("/bin/sash", ["-c", "-echo one two"]),
    "klibc-gzip": ("/usr/lib/klibc/bin/gzip", ["-c"]), "e2fsck.static": ("/sbin/e2fsck.static", ["-fn", "image"]),
    "catatonit": ("/usr/bin/catatonit", ["--", "/bin/echo", "started"]), "ldconfig": ("/sbin/ldconfig", ["-p"]),
}
SIZES = re.compile(r"([0-9]+) instructions?, ([0-9]+) blocks?")
NOT_CODE = re.compile(r"obstacle: ([0-9]+) bytes? \(.*of the text (?:may be no code|are data)")
UNLISTED = re.compile(r"obstacle: ([0-9]+) executed instructions?")
PATCHED = re.compile(r"patched ([0-9]+) of ([0-9]+)")


class Case(NamedTuple):
    """A program: how it is made, or where it stands, and the words of its run."""
    name: str
    source: str
    command: str
    words: list[str]
    is_stripped: bool


class Row(NamedTuple):
    name: str
    cells: list[str]
    is_fault: bool


def cases() -> list[Case]:
    found = []
    for source, commands in {"work.c": OF_C, **OF_OTHERS}.items():
        for name, command in commands.items():
            found.append(Case(name, source, command, [], False))
            if name in STRIPPED:
                found.append(Case(f"{name}, stripped", source, command, [], True))
    return found + [Case(name, "", path, words, False) for name, (path, words) in INSTALLED.items()]


def last_line(text: str) -> str:
    return next((line for line in reversed(text.splitlines()) if line.strip()), "")


def make(case: Case, folder: str) -> Optional[str]:
    """Puts the program into the folder; where that fails, why."""
    out = os.path.join(folder, "program")
    if not case.source:
        if not os.path.isfile(case.command):
            return f"{case.command} is not installed"
        shutil.copyfile(case.command, out)
        os.chmod(out, 0o755)
        return None
    command = case.command.format(out="program", source=os.path.join(SOURCES, case.source))
    done = subprocess.run(command, shell=True, cwd=folder, capture_output=True, text=True, errors="replace", check=False)
    if done.returncode or not os.path.isfile(out):
        told = [line for line in done.stderr.splitlines() if re.search("error|not found", line)]
        return f"can't be made here: {told[0] if told else last_line(done.stderr)}"
    if case.is_stripped:
        subprocess.run(["strip", out], check=True)
    return None


def call(words: list[str], folder: str) -> tuple[int, bytes, str]:
    """Status, output and messages of a command that is given the text."""
    done = subprocess.run(words, input=TEXT.encode(), cwd=folder, capture_output=True, check=False, timeout=SECONDS)
    return done.returncode, done.stdout, done.stderr.decode(errors="replace")


def vaknuhol(folder: str, *words: str) -> tuple[int, bytes, str]:
    return call([os.path.join(TOP, "bin", "vaknuhol"), *words], folder)


def stepped(case: Case, folder: str, steps: int) -> tuple[list[str], bool]:
    """Cells of what `fit` tells, and whether they show a fault."""
    status, output, told = vaknuhol(folder, "fit", "--steps", str(steps), "program", "--", *case.words)
    text = output.decode(errors="replace")
    size, unlisted = SIZES.search(text), UNLISTED.search(text)
    if not size:
        return [last_line(text) or last_line(told)], status != 1
    made = re.search(r"^run: ([0-9]+) steps?", text, re.M)
    is_read = "is read as data" in text
    no_code = sum(int(it) for it in NOT_CODE.findall(text))
    return [*size.groups(), str(no_code), made[1] if made else "none", unlisted[1] if unlisted else "0", "yes" if is_read else "no"], \
        not made or bool(unlisted) or is_read


def further_runs(case: Case, folder: str, parts: int) -> Iterator[tuple[int, bytes]]:
    """Status and output of the second patched file and those behind it, where there are several: `count` leaves out what these print."""
    for number in range(2, parts + 1):
        (table,) = glob.glob(f"{glob.escape(folder)}/program.vak/*/program.{number}.*.run")
        patched_file = f"{table.rsplit('.', 2)[0]}.patched"
        yield call([native.program("vaknuhol-run"), "vaknuhol", table, "part.record", patched_file, "program", *case.words], folder)[:2]


def patched(case: Case, folder: str, choice: str, wanted: tuple[int, bytes]) -> tuple[str, bool]:
    """A cell of a run, patched at what is chosen, and whether it shows a fault."""
    status, output, told = vaknuhol(folder, "count", choice, "program", "--", *case.words)
    parts = [(int(some), int(of_all)) for some, of_all in PATCHED.findall(told)]
    if not parts:
        return last_line(told), True
    is_same = (status, output) == wanted and all(it == wanted for it in further_runs(case, folder, len(parts)))
    return f"{sum(some for some, _ in parts)} of {sum(of_all for _, of_all in parts)}{'' if is_same else ': ANOTHER RUN'}", not is_same


def try_case(case: Case, top: str, steps: int) -> Row:
    folder = os.path.join(top, re.sub("[^A-Za-z0-9+.-]+", "-", case.name))
    os.makedirs(folder, exist_ok=True)
    fault = make(case, folder)
    if fault:
        return Row(case.name, [fault], False)
    if "image" in case.words:
        subprocess.run(["/sbin/mke2fs", "-q", "-F", "image", "512"], cwd=folder, check=True, stdin=subprocess.DEVNULL, stdout=subprocess.DEVNULL)
    cells, is_fault = stepped(case, folder, steps)
    if len(cells) > 1:
        status, output, _ = call(["./program", *case.words], folder)
        for choice in ("--blocks", "--functions"):
            cell, is_other = patched(case, folder, choice, (status, output))
            cells.append(cell)
            is_fault |= is_other
    return Row(case.name, cells, is_fault)


def row_of(case: Case, top: str, steps: int) -> Row:
    """The row of a program, and of one with a command that does not end."""
    try:
        return try_case(case, top, steps)
    except subprocess.TimeoutExpired as error:
        return Row(case.name, [f"no end after {SECONDS} s: {shlex.join(error.cmd)}"], True)


def main() -> None:
    parser = argparse.ArgumentParser(description=__doc__, formatter_class=argparse.RawDescriptionHelpFormatter)
    parser.add_argument("--jobs", type=int, default=1, help="how many programs are tried at a time")
    parser.add_argument("--steps", type=int, default=STEPS, help=f"single steps of each run, 0 for whole runs ({STEPS})")
    parser.add_argument("--keep", metavar="FOLDER", help="where the programs and what is patched of them stay")
    parser.add_argument("names", nargs="*", metavar="NAME", help="programs by the names of their rows; without any, all of them")
    words = parser.parse_args()
    named = {it.name: it for it in cases()}
    unknown = set(words.names) - named.keys()
    if unknown:
        sys.exit(f"no such program: {', '.join(sorted(unknown))}; there are {', '.join(map(shlex.quote, named))}")
    chosen = [named[name] for name in words.names or named]
    print("| program | instructions | blocks | no code | steps | not listed | read | all blocks | functions |\n|---|---|---|---|---|---|---|---|---|", flush=True)
    rows = []
    with tempfile.TemporaryDirectory() as other, concurrent.futures.ThreadPoolExecutor(words.jobs) as pool:
        for row in pool.map(lambda case: row_of(case, words.keep or other, words.steps), chosen):
            print(f"| {row.name} | {' | '.join(row.cells)} |", flush=True)
            rows.append(row)
    tried, wrong = [row for row in rows if len(row.cells) > 1], [row.name for row in rows if row.is_fault]
    print(f"{len(tried)} programs were tried" + (f", and these show a fault: {', '.join(wrong)}" if wrong else ", and each runs as before"))
    sys.exit(bool(wrong))


if __name__ == "__main__":
    main()
