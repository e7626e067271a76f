#!/usr/bin/env python3
"""Lines that gcov has executed and that are 0 here, by what is left of them in the program.

    missed_lines.py [--show] FOLDER...

Each FOLDER was left by lines_and_gcov.py --folder. A line has the class of the first test that holds for it; the last one always does.
Prints how many lines each class has, and for how many lines that are 0 with gcov, too, the same holds; with --show the lines.
"""
import argparse
import collections
from typing import Callable

from gcov_blocks import EXIT, FAKE, is_fork
from line_evidence import Difference, Program


def executed(it: Difference, blocks: set[int]) -> set[int]:
    return {block for block in blocks if it.program.told.flow.counts[block]}


def is_test(it: Difference) -> bool:
    """Whether each of gcov's blocks of the line, or of those that were executed, is a fork, or only leads to one of the line."""
    every = [(function, block) for function, blocks in it.places.items() for block in blocks]
    blocks = [(function, block) for function, block in every if function.count(block)] or every
    return bool(blocks) and all(
        is_fork(function, block) or any(is_fork(function, way.target) and way.target in it.places[function] for way in function.out(block))
        for function, block in blocks)


def is_return(it: Difference) -> bool:
    """Whether the line is a `return`, or one of gcov's blocks of it leaves its function; or it has a `break`, and other ways lead to each of
    gcov's executed blocks of it."""
    if "break;" in it.text() and all(len(function.into(block)) > 1 for function, blocks in it.places.items() for block in blocks
                                     if function.count(block)):
        return True
    return it.text().startswith("return") or any(way.target == EXIT and not way.flags & FAKE for function, blocks in it.places.items()
                                                 for block in blocks for way in function.out(block))


def begins_nowhere(it: Difference) -> bool:
    """Code of the line is executed, and in none of its code a statement begins."""
    return bool(executed(it, it.own())) and not it.begins()


def begins_elsewhere(it: Difference) -> bool:
    """Code of the line is executed; its statements begin in blocks that aren't."""
    return bool(executed(it, it.own()))


def is_row(it: Difference) -> bool:
    """A row of no length stands in an executed block, in a copy of the line's function or in none, and code of the line in others."""
    return bool(executed(it, it.binary() | it.begins()))


def is_moved(it: Difference) -> bool:
    """No row of the line begins a statement: what is left of it was moved to where its value is used."""
    return not it.begins()


TESTS: tuple[tuple[str, Callable[[Difference], bool]], ...] = (
    ("code in which no statement begins", begins_nowhere), ("statement begins elsewhere", begins_elsewhere), ("row alone", is_row),
    ("test without executed code", is_test), ("return or break without executed code", is_return), ("value alone", is_moved),
    ("other statement without executed code", bool),
)


def class_of(it: Difference) -> str:
    return next(title for title, holds in TESTS if holds(it))


def zeros(program: Program) -> list[Difference]:
    """The lines that both count, and that are 0 here."""
    return [Difference(program, key) for key in sorted(program.theirs.keys() & program.ours.keys()) if not program.ours[key]]


def main() -> None:
    parser = argparse.ArgumentParser(description=__doc__, formatter_class=argparse.RawDescriptionHelpFormatter)
    parser.add_argument("--show", action="store_true")
    parser.add_argument("folders", nargs="+")
    words = parser.parse_args()
    missed: collections.Counter[str] = collections.Counter()
    alike: collections.Counter[str] = collections.Counter()
    for folder in words.folders:
        for it in zeros(Program(folder)):
            title = class_of(it)
            (missed if it.theirs else alike)[title] += 1
            if words.show and it.theirs:
                print(f"    {title}: {it.program.name} {it.key[0].rpartition('/')[2]}:{it.key[1]} gcov {it.theirs}: {it.text()}", flush=True)
    print("| What is left | executed with gcov | not executed with gcov |\n|---|---|---|")
    for title, _ in TESTS:
        print(f"| {title} | {missed[title]} | {alike[title]} |")
    print(f"| sum | {missed.total()} | {alike.total()} |")


if __name__ == "__main__":
    main()
