#!/usr/bin/env python3
"""Profiles of static programs by `vaknuhol report --callgrind`, beside callgrind's own: a line of a table for each.

    profiles_and_callgrind.py [--words WORDS] [--input FILE] [--verbose] PROGRAM...

Compared are functions by their names, as c++filt has them: the instructions that each executed itself, and of those that have no indirect
callers and are in no cycle the inclusive costs. The C library is told to use no AVX-512, which Valgrind lacks; where it takes other
functions nevertheless, these are no differences but functions of one of both. Functions that have less than a thousandth of all aren't
compared by their inclusive costs. --verbose tells each difference. profile.c is
a program to begin with.
"""
import argparse
import collections
import os
import re
import shlex
import subprocess
import sys
import tempfile
from collections.abc import Iterator
from typing import NamedTuple

TOP = os.path.dirname(os.path.dirname(os.path.realpath(__file__)))
# With a comma at its end: glibc 2.36 reads on past a last name, into what follows in the environment, where Valgrind has variables of its own.
TUNED = {"GLIBC_TUNABLES": "glibc.cpu.hwcaps=-AVX512F,-AVX512VL,-AVX512BW,-AVX512CD,-AVX512DQ,",
         "GODEBUG": "asyncpreemptoff=1"}
NAMED = re.compile(r"c?fn=\((\d+)\)(?: (.+))?")
AGAIN = re.compile(r"'\d+$")  # what callgrind adds to the name of a function that was called again meanwhile
CLOSE, LEAST = 0.05, 0.001


def demangled(names: list[str]) -> list[str]:
    done = subprocess.run(["c++filt", "--no-verbose"], input="\n".join(names), capture_output=True, text=True, check=True)
    return done.stdout.splitlines()


def same_functions(program: str) -> dict[str, str]:
    """For each name of a function that has several, the first of them; not for a name that several functions have."""
    told = subprocess.run(["nm", program], capture_output=True, text=True, check=False).stdout
    rows = [row.split(maxsplit=2) for row in told.splitlines() if re.match(r"[0-9a-f]+ [TtWwi] ", row)]
    names = demangled([row[2] for row in rows])
    by_place: dict[str, set[str]] = collections.defaultdict(set)
    places: dict[str, set[str]] = collections.defaultdict(set)
    for (place, _, _), name in zip(rows, names):
        by_place[place].add(name)
        places[name].add(place)
    return {name: min(by_place[place]) for name, (place, *more) in places.items() if not more}


class Profile:
    """A file in callgrind's format: the cost of each function, and calls with their inclusive costs."""

    def __init__(self, path: str) -> None:
        self.own: collections.Counter[str] = collections.Counter()
        self.calls: collections.Counter[tuple[str, str]] = collections.Counter()
        self.names: dict[str, str] = {}
        with open(path, encoding="utf-8", errors="replace") as file:
            self.read(iter(file))

    def read(self, lines: Iterator[str]) -> None:
        function = called = ""
        for line in lines:
            named = NAMED.match(line)
            if named:
                self.names.setdefault(named[1], AGAIN.sub("", (named[2] or "").strip()))
                if line.startswith("c"):
                    called = self.names[named[1]]
                else:
                    function = self.names[named[1]]
            elif line.startswith("calls="):
                self.calls[function, called] += int(next(lines).split()[-1])
            elif line[:1] in "0123456789+-*" and line.strip():
                self.own[function] += int(line.split()[-1])

    def renamed(self, others: dict[str, str]) -> "Profile":
        """With names as c++filt has them, and one for each function."""
        names = sorted({*self.own, *(name for pair in self.calls for name in pair)})
        plain = {name: others.get(it, it) for name, it in zip(names, demangled(names))}
        own, calls = self.own, self.calls
        self.own, self.calls = collections.Counter(), collections.Counter()
        for name, cost in own.items():
            self.own[plain[name]] += cost
        for (caller, callee), cost in calls.items():
            self.calls[plain[caller], plain[callee]] += cost
        return self

    def inclusive(self) -> dict[str, int]:
        """Of a function that is called what its calls cost, but for those by itself; of another one what it and its calls cost."""
        found: collections.Counter[str] = collections.Counter()
        for (caller, callee), cost in self.calls.items():
            if caller != callee:
                found[callee] += cost
        for name in self.own:
            if name not in found:
                found[name] = self.own[name] + sum(cost for (caller, callee), cost in self.calls.items() if caller == name != callee)
        return found

    def in_cycles(self) -> set[str]:
        """The functions that call others by which they are called."""
        below: dict[str, set[str]] = collections.defaultdict(set)
        for caller, callee in self.calls:
            below[caller].add(callee)
        found = set()
        for name in list(below):
            seen, work = set[str](), [callee for callee in below[name] if callee != name]
            while work:
                callee = work.pop()
                if callee not in seen:
                    seen.add(callee)
                    work += below.get(callee, ())
            if name in seen:
                found.add(name)
        return found


class Compared(NamedTuple):
    theirs: Profile
    ours: Profile
    indirect: set[str]

    def row(self, name: str, is_verbose: bool) -> str:
        both = [it for it in self.ours.own if self.ours.own[it] and self.theirs.own[it]]
        equal = [it for it in both if self.ours.own[it] == self.theirs.own[it]]
        their, our, total = self.theirs.inclusive(), self.ours.inclusive(), sum(self.theirs.own.values())
        left_out = self.indirect | self.theirs.in_cycles() | self.ours.in_cycles()
        judged = [it for it in both if it not in left_out and their[it] >= LEAST * total]
        close = [it for it in judged if abs(our[it] - their[it]) <= CLOSE * their[it]]
        if is_verbose:
            for it in sorted({*both} - {*equal}, key=lambda it: -self.theirs.own[it]):
                print(f"    {it}: itself {self.ours.own[it]}, callgrind {self.theirs.own[it]}", file=sys.stderr)
            for it in sorted({*judged} - {*close}, key=lambda it: -their[it]):
                print(f"    {it}: inclusive {our[it]}, callgrind {their[it]}", file=sys.stderr)
        share = sum(self.theirs.own[it] for it in equal) / total
        return (f"| {name} | {total:,} | {100 * sum(self.ours.own.values()) / total:.1f} % | {len(equal)} of {len(both)} | "
                f"{100 * share:.1f} % | {len(close)} of {len(judged)} |")


def run(words: list[str], given: str | None) -> str:
    with open(given or os.devnull, "rb") as file:
        done = subprocess.run(words, stdin=file, capture_output=True, text=True, errors="replace", env={**os.environ, **TUNED}, check=False)
    return done.stdout


def indirect_of(told: str) -> set[str]:
    """The functions that have callers by indirect calls, or such as aren't known, by the text of --calls."""
    found, waiting = set[str](), False
    for line in told.splitlines():
        is_head = re.match(r" *[0-9.]+ {2,}[0-9]+ {2,}[0-9]+ {2,}\S+ {2}(.+?)(?: <cycle \d+>)?$", line)
        if not line:
            waiting = False
        elif is_head and waiting:
            found.add(is_head[1])
            waiting = False
        elif is_head:
            waiting = False
        elif "from elsewhere" in line or "by indirect calls" in line or "~" in line:
            waiting = True
    return found


def compared(program: str, words: list[str], given: str | None) -> Compared:
    with tempfile.TemporaryDirectory() as folder:
        command, path = f"{TOP}/bin/vaknuhol", os.path.abspath(program)
        kept = ["--record", f"{folder}/record"]
        run([command, "count", path, "--blocks", "--quiet", *kept, "--", *words], given)
        run([command, "report", path, f"{folder}/record", "--callgrind", f"{folder}/ours"], None)
        told = run([command, "report", path, f"{folder}/record", "--calls"], None)
        run(["valgrind", "--tool=callgrind", "--demangle=no", "--skip-plt=no", f"--callgrind-out-file={folder}/theirs", path, *words], given)
        others = same_functions(path)
        indirect = {others.get(name, name) for name in indirect_of(told)}
        return Compared(Profile(f"{folder}/theirs").renamed(others), Profile(f"{folder}/ours").renamed(others), indirect)


def main() -> None:
    parser = argparse.ArgumentParser(description=__doc__, formatter_class=argparse.RawDescriptionHelpFormatter)
    parser.add_argument("--words", default="")
    parser.add_argument("--input")
    parser.add_argument("--verbose", action="store_true")
    parser.add_argument("programs", nargs="+")
    words = parser.parse_args()
    print("| Program | callgrind's instructions | ours | functions with equal self cost | their share | inclusive within 5 % |")
    print("|---|---|---|---|---|---|")
    for program in words.programs:
        found = compared(program, shlex.split(words.words), words.input)
        print(found.row(os.path.basename(program), words.verbose), flush=True)


if __name__ == "__main__":
    main()
