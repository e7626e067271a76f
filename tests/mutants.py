#!/usr/bin/env python3
"""Which wrong lines the tests find: single mutants of the modules of scripts/vaknuhol (tests/mutation_rules.py has the
rules), each tried against the tests that reach its line, the quickest first.

    tests/mutants.py --e9tool PROGRAM [--sample 200 --seed 1] [--jobs 2] [--tests 'test_r*'] [MODULE..]

MODULE is a path below scripts/vaknuhol, as views/lcov.py; without one all are changed. Each job has a copy of the
repository in the folder of --work. First all tests run once there with coverage.py (Debian's python3-coverage): what
each reaches, also in the commands that it starts, and how long it takes stands in reached.json, which is made again
where a module or a test has changed. A mutant is tried against tests that took a third of its time limit together; one
that is still running at its limit is found, since it doesn't end. A slow test that fails is called again before it is
believed.

tests/equal_mutants.txt lists mutants that mean the same, with the reason; they are left out. The share found is printed
by module, and each survivor. The status is 0 if the share is that of --least, else 1.
"""
import argparse
import collections
import concurrent.futures
import fnmatch
import glob
import json
import os
import random
import sys
from typing import NamedTuple

from mutation_copies import PACKAGE, TOP, copy_of, own_children, pytest_in
from mutation_reach import chosen_tests, known_reach, test_modules
from mutation_rules import Mutant, mutants_of, text_of

EQUAL = os.path.join(TOP, "tests", "equal_mutants.txt")
SLOW, SHARE = 2.0, 3  # seconds; of a mutant's time limit


class Tried(NamedTuple):
    """What came of a mutant: the module, and what found it, or nothing."""
    module: str
    mutant: Mutant
    by: str


class Job:
    """A copy in which mutants are tried one after the other."""

    def __init__(self, folder: str, tool: str, limit: float) -> None:
        self.folder, self.tool, self.limit, self.times = folder, tool, limit, 10**9

    def put(self, module: str, text: str) -> None:
        """Each text of a module has a time of its own, by which Python knows what it has compiled."""
        path = f"{self.folder}/tree/{PACKAGE}/{module}"
        self.times += 2
        with open(path, "w", encoding="utf-8") as file:
            file.write(text)
        os.utime(path, (self.times, self.times))

    def fails(self, tests: list[str]) -> str:
        """The test that fails, or what else goes wrong."""
        chosen = f"{self.folder}/chosen"
        with open(chosen, "w", encoding="utf-8") as file:
            json.dump(tests, file)
        modules = sorted({name.partition("::")[0] for name in tests})
        status, printed = pytest_in(self.folder, ["-x", "--tb=no", f"--e9tool={self.tool}", *modules], self.limit,
                                    MUTANTS_CHOSEN=chosen)
        if status is None:
            return "its time"
        named = [line.split(" ")[1] for line in printed.splitlines() if line.startswith(("FAILED ", "ERROR "))]
        return "" if status == 0 else named[0] if named else f"pytest's status {status}"

    def tried(self, module: str, mutant: Mutant, tests: list[str], seconds: dict[str, float]) -> Tried:
        if not tests:
            return Tried(module, mutant, "")
        with open(f"{TOP}/{PACKAGE}/{module}", encoding="utf-8") as file:
            original = file.read()
        self.put(module, text_of(original, mutant))
        by = self.fails(tests)
        if seconds.get(by, 0) > SLOW:
            by = self.fails([by])
        self.put(module, original)
        return Tried(module, mutant, by)


def try_all(folder: str, tool: str, limit: float, work: list, seconds: dict[str, float]) -> list[Tried]:
    own_children()
    job, found = Job(folder, tool, limit), []
    for number, (module, mutant, tests) in enumerate(work, 1):
        found.append(job.tried(module, mutant, tests, seconds))
        what = found[-1].by or "SURVIVES"
        print(f"{number} of {len(work)}: {module}:{mutant.line} {what}", file=sys.stderr, flush=True)
    return found


def equal_ones() -> set[tuple[str, str]]:
    """Those that mean the same: a module, a mutant's name, and behind a tab the reason."""
    if not os.path.isfile(EQUAL):
        return set()
    with open(EQUAL, encoding="utf-8") as file:
        rows = [line.rstrip("\n").split("\t") for line in file if line.strip() and not line.startswith("#")]
    return {(module, name) for module, name, _ in rows}


def all_mutants(wanted: list[str]) -> list[tuple[str, Mutant]]:
    found, equal = [], equal_ones()
    for path in sorted(glob.glob(f"{TOP}/{PACKAGE}/**/*.py", recursive=True)):
        module = os.path.relpath(path, f"{TOP}/{PACKAGE}")
        if not wanted or any(fnmatch.fnmatch(module, name) for name in wanted):
            with open(path, encoding="utf-8") as file:
                found += [(module, it) for it in mutants_of(file.read()) if (module, it.name()) not in equal]
    return found


def print_result(results: list[Tried]) -> float:
    """A line for each module, the survivors, and the share of all."""
    by_module = collections.defaultdict(list)
    for it in results:
        by_module[it.module].append(it)
    for module, its in sorted(by_module.items()):
        found = sum(1 for it in its if it.by)
        print(f"{found:>5} of {len(its):>4} {100 * found / len(its):>5.1f} %  {module}")
    for it in results:
        if not it.by:
            print(f"survives: {it.module}:{it.mutant.line} {it.mutant.name()}")
    found, late = sum(1 for it in results if it.by), sum(1 for it in results if it.by == "its time")
    print(f"{found} of {len(results)} mutants are found ({100 * found / max(len(results), 1):.1f} %), {late} by their time")
    return found / max(len(results), 1)


def main() -> int:
    parser = argparse.ArgumentParser(description=__doc__, formatter_class=argparse.RawDescriptionHelpFormatter)
    parser.add_argument("modules", nargs="*", metavar="MODULE")
    parser.add_argument("--e9tool", required=True, type=os.path.realpath)
    parser.add_argument("--sample", type=int, metavar="N", help="N mutants of all, by chance")
    parser.add_argument("--seed", type=int, default=1)
    parser.add_argument("--jobs", type=int, default=2)
    parser.add_argument("--tests", nargs="+", default=["*"], metavar="NAME", help="modules of tests, as 'test_r*'")
    parser.add_argument("--limit", type=float, default=90, metavar="SECONDS", help="for one mutant")
    parser.add_argument("--least", type=float, default=0, metavar="SHARE", help="the share to be found, as 0.9")
    parser.add_argument("--work", default="/tmp/vaknuhol-mutants", metavar="FOLDER")
    parser.add_argument("--list", action="store_true", help="print the mutants, and try none")
    words = parser.parse_args()
    mutants = all_mutants(words.modules)
    if words.sample is not None:
        mutants = random.Random(words.seed).sample(mutants, min(words.sample, len(mutants)))
    if words.list:
        for module, mutant in mutants:
            print(f"{module}:{mutant.line} {mutant.name()}")
        return 0
    os.makedirs(words.work, exist_ok=True)
    known = known_reach(words.work, words.jobs, words.e9tool, test_modules(words.tests))
    work = [(module, it, chosen_tests(known, module, it, words.limit / SHARE)) for module, it in mutants]
    folders = [copy_of(words.work, job) for job in range(words.jobs)]
    with concurrent.futures.ProcessPoolExecutor(words.jobs) as pool:
        parts = pool.map(try_all, folders, [words.e9tool] * words.jobs, [words.limit] * words.jobs,
                         [work[job::words.jobs] for job in range(words.jobs)], [known["seconds"]] * words.jobs)
        results = [it for part in parts for it in part]
    return 0 if print_result(results) >= words.least else 1


if __name__ == "__main__":
    sys.exit(main())
