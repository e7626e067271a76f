#!/usr/bin/env python3
"""Why counts of lines differ from gcov's, by evidence: a line has the class of the first rule that holds for it.

    line_classes.py [--show CLASS] [--shifted] FOLDER...

Each FOLDER was left by lines_and_gcov.py --folder: a program, its record, and gcov's files. The rules compare counts with those of gcov's
blocks and of the ways between them, and look at rows and instructions of the program. A rule that compares numbers may hold by chance where
these are small: with --shifted each line has the difference of the next one, so that what then holds for numbers holds by chance. Prints how
many lines of each program each class has; with --show its lines, and what of them is known.
"""
import argparse
import collections
from typing import Callable

from gcov_blocks import EXIT, FAKE, is_fork
from line_evidence import Difference, Program, sums
from vaknuhol.program.flow_graph import OUTSIDE

Others = list[Difference]  # the program's other lines that differ


def of_last_blocks(it: Difference, _: Others) -> bool:
    return bool(it.places) and it.whole() == it.ours


def of_ends(it: Difference, _: Others) -> bool:
    """gcov has a block on the line furthest down in it, where the program's has code of another alone."""
    return bool(it.places) and it.of_ends() == it.ours


def bare_blocks(it: Difference, _: Others) -> bool:
    return bool(it.places) and it.whole(True) == it.ours


def of_copies(it: Difference, _: Others) -> bool:
    return it.is_repeated()


def beside(it: Difference, _: Others) -> bool:
    """Control goes from one copy to another in gcov's blocks of the line, which it enters once."""
    return len(it.copies) > 1 and it.ours - it.whole() in sums(it.ways_within())


def entered_again(it: Difference, _: Others) -> bool:
    again = it.reentries()
    return bool(again) and it.less in sums(again) | {it.theirs - it.whole() + sum(again)}


def head_of_loop(it: Difference, _: Others) -> bool:
    heads = it.heads()
    return bool(heads) and it.less == sum(function.count(2) - (function.out(0)[0].count or 0) for function in heads) > 0


def unrolled(it: Difference, _: Others) -> bool:
    return it.is_in_loop() and bool(it.copies) and not it.is_in_binary_loop()


def converted(it: Difference, _: Others) -> bool:
    """The line's arm is executed with its fork, or is no block any more, and a conditional move or fewer branches are there."""
    arms = it.arms()
    moved = -it.less in sums(fork - arm for fork, arm in arms) or it.less in sums(arm for _, arm in arms)
    if not moved:
        return False
    near = [it, *(Difference(it.program, key) for key in it.forks() if key in it.program.theirs and key in it.program.ours)]
    return any(other.is_branchless() or other.has_other_branches() for other in near)


def first_test(it: Difference, _: Others) -> bool:
    return it.less in sums(it.loop_entries())


def first_test_twice(it: Difference, _: Others) -> bool:
    return -it.less in sums(it.loop_entries())


def of_returns(it: Difference, _: Others) -> bool:
    """gcov has the block to which all returns lead on the line, and only some of them are the line's here."""
    left = {sum(way.count or 0 for way in function.into(EXIT) if not way.flags & FAKE) for function in it.places}
    if it.text().startswith("return") and it.ours in left and it.less < 0:
        return True
    ways = [way.count or 0 for function, blocks in it.places.items() for block in blocks for way in function.into(block)
            if any(way.target == EXIT and not way.flags & FAKE for way in function.out(block))]
    return bool(ways) and (it.ours in sums(ways) | {0} or it.less in sums(ways))


def merged(it: Difference, others: Others) -> bool:
    """Another line of the same function, of like text, has what this one lacks, or lacks what this one has more."""
    word = (it.text().split("(")[0].split() or [""])[0]
    return any(other is not it and other.less == -it.less and it.places.keys() & other.places.keys()
               and (other.text().split("(")[0].split() or [""])[0] == word for other in others)


def threaded(it: Difference, _: Others) -> bool:
    return it.less in sums(way.count or 0 for way in it.ways())


def moved_before(it: Difference, _: Others) -> bool:
    """The line is executed as often as a block from which control comes to it."""
    counts = {function.count(way.source) for function, blocks in it.places.items() for block in blocks for way in function.into(block)}
    return it.less < 0 and it.ours in counts


def folded(it: Difference, _: Others) -> bool:
    """The line has no code and no row in some of its copies, and lacks the counts of these, or of some of gcov's blocks; or its functions
    were entered as much less often."""
    without, missing = it.copies_without(), it.calls_missing()
    counts = [function.count(block) for function, blocks in it.places.items() for block in blocks]
    return bool(without) and it.less in sums(without) | sums(counts) | it.lacking() or it.less > 0 and it.less in sums(missing)


def of_calls(it: Difference, _: Others) -> bool:
    """The lines at which copies of the line were inlined differ as much."""
    return it.less in sums(it.less_of_calls())


def of_call(it: Difference, _: Others) -> bool:
    return not it.copies


def remnant(it: Difference, _: Others) -> bool:
    return it.has_no_begin()


def conditional(it: Difference, _: Others) -> bool:
    return it.is_branchless() and it.has_other_branches()


def decided(it: Difference, _: Others) -> bool:
    """The line is a test, or blocks that only lead to one of it, and is made less often."""
    blocks = [(function, block) for function, blocks in it.places.items() for block in blocks]
    return it.less > 0 and bool(blocks) and all(
        is_fork(function, block) or any(is_fork(function, way.target) and way.target in it.places[function] for way in function.out(block))
        for function, block in blocks)


def joined(it: Difference, _: Others) -> bool:
    """The line has rows alone, where ways meet of which only some come by it."""
    return it.less < 0 and not it.has_code() and it.theirs in sums(it.ways_in_binary()) | {0}


def other_blocks(it: Difference, _: Others) -> bool:
    """gcov's count is that of some of the program's blocks of the line; statements of it begin only in others."""
    return it.theirs in sums(it.program.told.flow.counts[block] or 0 for block in it.binary())


def on_one_way(it: Difference, _: Others) -> bool:
    """The line's rows stand on some of the ways alone that meet in a block, which is executed as often as gcov has the line."""
    flow = it.program.told.flow
    out = [flow.graph.out[block] for block in it.binary()]
    targets = {flow.graph.target[edges[0]] for edges in out if len(edges) == 1}
    return it.less > 0 and it.theirs in {flow.counts[target] for target in targets - {OUTSIDE}}


def of_branch(it: Difference, _: Others) -> bool:
    """No statement of the line begins in an executed block, and its branch is executed."""
    counts = it.program.told.flow.counts
    return it.ours > 0 and bool(it.begins()) and not any(counts[block] for block in it.begins())


def passed(it: Difference, _: Others) -> bool:
    """The line is a test, and what it lacks comes past it to where that leads: a test before decides it."""
    is_test = any(is_fork(function, block) for function, blocks in it.places.items() for block in blocks)
    return is_test and it.less > 0 and it.less in it.ways_past()


def returned_past(it: Difference, _: Others) -> bool:
    """The line is a return, with gcov as often as its function was entered here: control left some of the calls past it."""
    counts = [it.program.told.instances.count_of(copy) or 0 for copy in it.copies if copy]
    return it.text().startswith("return") and it.less > 0 and it.theirs == sum(counts + it.copies_without())


def several(it: Difference, _: Others) -> bool:
    """Loops or tests of several statements stand on the line."""
    return sum(is_fork(function, block) for function, blocks in it.places.items() for block in blocks) > 1 and it.text().count(";") > 1


RULES: tuple[tuple[str, Callable[[Difference, Others], bool]], ...] = (
    ("last block", of_last_blocks), ("bare blocks", bare_blocks), ("copies in a block", of_copies),
    ("entered again", entered_again), ("head", head_of_loop), ("unrolled", unrolled),
    ("converted", converted), ("first test", first_test), ("first test twice", first_test_twice), ("returns", of_returns),
    ("merged", merged), ("folded copies", folded), ("threaded", threaded), ("moved before", moved_before), ("conditional", conditional),
    ("decided test", decided), ("call", of_call), ("remnant", remnant), ("several statements", several), ("joined", joined), ("other blocks", other_blocks),
    ("ends of blocks", of_ends), ("copies beside", beside), ("calls differ", of_calls), ("on one way", on_one_way), ("branch alone", of_branch),
    ("passed", passed), ("returned past", returned_past),
)
LEFT = "unexplained"


def class_of(it: Difference, others: Others) -> str:
    return next((title for title, holds in RULES if holds(it, others)), LEFT)


def shift(differences: Others) -> None:
    """Gives each line the difference of the next."""
    for it, less in zip(differences, [other.less for other in differences[1:] + differences[:1]]):
        it.less, it.ours = less, it.theirs - less


def show(it: Difference) -> None:
    blocks = [(function.head.name, {block: function.count(block) for block in blocks}) for function, blocks in it.places.items()]
    counts = it.program.told.flow.counts
    ours = {copy: {block: counts[block] for block in sorted(blocks)} for copy, blocks in it.copies.items()}
    print(f"    {it.program.name} {it.key[0].rpartition('/')[2]}:{it.key[1]} gcov {it.theirs}, ours {it.ours}: {it.text()}\n"
          f"        gcov's blocks {blocks[:6]}, ways {[(way.source, way.target, way.count) for way in it.ways()][:12]}\n        ours {ours}")


def main() -> None:
    parser = argparse.ArgumentParser(description=__doc__, formatter_class=argparse.RawDescriptionHelpFormatter)
    parser.add_argument("--show", action="append", default=[])
    parser.add_argument("--shifted", action="store_true")
    parser.add_argument("folders", nargs="+")
    words = parser.parse_args()
    titles = [*(title for title, _ in RULES), LEFT]
    print(f"| Program | both | differ | {' | '.join(titles)} |\n{'|---' * (len(titles) + 3)}|")
    total: collections.Counter[str] = collections.Counter()
    both = 0
    for folder in words.folders:
        program = Program(folder)
        differences = program.differences()
        if words.shifted:
            shift(differences)
        classes = [class_of(it, differences) for it in differences]
        found = collections.Counter(classes)
        total += found
        both += program.both()
        print(f"| {program.name} | {program.both()} | {len(differences)} | {' | '.join(str(found[it]) for it in titles)} |", flush=True)
        for it, title in zip(differences, classes):
            if title in words.show:
                show(it)
    print(f"| sum | {both} | {total.total()} | {' | '.join(str(total[it]) for it in titles)} |")


if __name__ == "__main__":
    main()
