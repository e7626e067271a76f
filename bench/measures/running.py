"""What commands take: time, memory, the processor's instructions; and programs that are compiled for a measure."""
import os
import re
import shutil
import subprocess
import sys
import textwrap
from typing import NamedTuple

TOP = os.path.dirname(os.path.dirname(os.path.dirname(os.path.realpath(__file__))))
BENCH = os.path.join(TOP, "bench")
RUNS = 3
NONE = "not installed"
WIDTH = 157  # of the page's lines


class Taken(NamedTuple):
    """What a run took at least: seconds of the processor and by the clock, peak memory in MiB; and what it printed."""
    seconds: float
    wall: float
    mib: float
    told: str


def least_of(turns: list[Taken]) -> Taken:
    """The least of each part."""
    seconds, wall, mib = (min(it.seconds for it in turns), min(it.wall for it in turns), min(it.mib for it in turns))
    return Taken(seconds, wall, mib, turns[-1].told)


class Bench:
    """The program that is measured, and the folder where a measure's files are."""

    def __init__(self, tool: str, folder: str) -> None:
        self.tool, self.folder = tool, folder
        self.built: dict[str, str] = {}

    def path(self, name: str) -> str:
        return os.path.join(self.folder, name)

    def write(self, name: str, data: bytes | str) -> None:
        with open(self.path(name), "wb") as file:
            file.write(data.encode("ascii") if isinstance(data, str) else data)

    def size(self, name: str) -> int:
        return os.path.getsize(self.path(name))

    def compiled(self, source: str, *options: str) -> str:
        """The path of a program that gcc makes of a file of bench, or of one of a measure's own."""
        key = " ".join((source, *options))
        if key not in self.built:
            out = self.path(f"program{len(self.built)}")
            words = ["gcc", *(options or ("-O2",)), "-o", out, os.path.join(BENCH, source)]
            self.done([*words, "-lZydis"] if source.endswith("decodings.c") else words)
            self.built[key] = out
        return self.built[key]

    def done(self, words: list[str], allowed: tuple[int, ...] = (0,)) -> str:
        """What a command prints that has to end well."""
        found = subprocess.run(words, cwd=self.folder, capture_output=True, text=True, errors="replace", check=False)
        if found.returncode not in allowed:
            sys.exit(f"speed.py: {' '.join(words)}: {found.returncode}: {found.stdout[-300:]}{found.stderr[-300:]}")
        return found.stdout

    def once(self, words: list[str]) -> Taken:
        """What a run takes; status 1 says that a site is left."""
        whole = [self.compiled("measures/usage.c", "-O1", "-static"), *words]
        found = subprocess.run(whole, cwd=self.folder, stdin=subprocess.DEVNULL, capture_output=True, text=True,
                               errors="replace", check=False)
        status, spent, wall, peak = map(int, found.stderr.rsplit("\n", 2)[-2].split())
        if status not in (0, 1):
            sys.exit(f"speed.py: {' '.join(words)}: {status}: {found.stdout[-300:]}{found.stderr[-300:]}")
        return Taken(spent / 1e6, wall / 1e6, peak / 1024, found.stdout)

    def took(self, words: list[str], runs: int = RUNS) -> Taken:
        """The least of some runs."""
        found = [self.once(words) for _ in range(runs)]
        return least_of(found)

    def least(self, words: list[str]) -> Taken | None:
        """The same of another program, or nothing where it isn't here."""
        return self.took(words) if shutil.which(words[0]) else None

    def counted(self, words: list[str], out: str = os.devnull, allowed: tuple[int, ...] = (0, 1)) -> int:
        """The instructions that a run takes, by callgrind."""
        whole = ["valgrind", "--tool=callgrind", f"--callgrind-out-file={out}", *words]
        found = subprocess.run(whole, cwd=self.folder, capture_output=True, text=True, errors="replace", check=False)
        collected = re.search(r"Collected : (\d+)", found.stderr)
        if not collected or found.returncode not in allowed:
            sys.exit(f"speed.py: {' '.join(whole)}: {found.returncode}: {found.stdout[-300:]}{found.stderr[-300:]}")
        return int(collected.group(1))

    def decodings(self, file: str) -> float:
        """The instructions that Zydis takes to decode an instruction of a file's bytes."""
        words = [self.compiled("measures/decodings.c"), file]
        return (self.counted([*words, "200000"]) - self.counted([*words, "100000"])) / 100_000


def has_valgrind() -> bool:
    return shutil.which("valgrind") is not None


def table(head: str, rows: list[list[str]]) -> list[str]:
    """The lines of a table; its heads are separated by bars."""
    columns = [it.strip() for it in head.split("|")]
    return [f"| {' | '.join(columns)} |", "|---" * len(columns) + "|", *(f"| {' | '.join(row)} |" for row in rows)]


def point(text: str) -> list[str]:
    """The lines of a point of a list."""
    return textwrap.wrap(f"- {text}", WIDTH, subsequent_indent="  ", break_on_hyphens=False, break_long_words=False)


def milliseconds(seconds: float) -> str:
    return f"{1000 * seconds:.{0 if seconds >= 0.1 else 1 if seconds >= 0.01 else 2}f}"


def cell(taken: Taken | None) -> str:
    """Seconds of the processor and MiB, where a program is here."""
    return f"{taken.seconds:.2f}, {taken.mib:.0f}" if taken else NONE
