#!/usr/bin/env python3
"""Tries must-fail edits, several in one check: those of the gate, and those of more-edits that the gate leaves out.

Before a release, and for a crate whose contracts change; CONTRIBUTING.md says what an edit is. Edits that change
different functions of a crate share a check; of each it is read whether the function that its line `# clause:` names
(else the one that it changes) failed by a goal of its own, which the edit's line shows. NOT REFUSED: still proved. BAD:
it can't be applied, compiled or read, a proof cites a name that it took away, or another function or clause refused it.
NOT TRIED: nothing is known of it. The last line has the numbers. The checkout isn't changed: the edits are tried in
copies of what stands in it, which begin with what `rt check` and `rt lib` kept in out/ of any copy on this machine, and
prove the rest first. The status is 1 if an edit is not refused.
"""
import collections
import os
import queue
import shutil
import sys
import tempfile
import threading
from concurrent.futures import ThreadPoolExecutor

from edits.answers import Answer, Kind, Said
from edits.checks import Lane, NotProved, processor_seconds
from edits.edit_files import GATE, MORE, Edit, edits_in
from edits.trying import tried
from vaknuhol.arguments import Refusal, Words, run_command

TOP = os.path.dirname(os.path.dirname(os.path.abspath(__file__)))


class Ended(Exception):
    """That the command is ended while its lanes work."""


class Results:
    """What came of the edits: a line each as it is known, and the numbers."""

    def __init__(self) -> None:
        self.counts: collections.Counter[Kind] = collections.Counter()
        self.checks = 0
        self.is_ended = False  # whether no further check is to begin
        self.lock = threading.Lock()

    def tell(self, edit: Edit, answer: Answer) -> None:
        with self.lock:
            self.counts[answer.kind] += 1
            print(f"{edit.crate} {edit.name}: {answer.kind.value}: {answer.words}", flush=True)

    def summary(self) -> str:
        numbers = ", ".join(f"{self.counts[kind]} {kind.value}" for kind in Kind if kind is not Kind.UNCLEAR)
        took = f"{self.checks} checks, {processor_seconds():.0f} processor seconds"
        return f"{self.counts.total()} edits: {numbers}; {took}"


def try_crate(lane: Lane, edits: list[Edit], results: Results) -> None:
    """Tries the edits of one crate."""
    crate = edits[0].crate
    try:
        texts = lane.begin(crate)
    except NotProved as why:
        for edit in edits:
            results.tell(edit, Answer(Kind.UNSURE, str(why)))
        return

    def check(changed: dict[str, str]) -> Said:
        with results.lock:
            results.checks += 1
        if results.is_ended:
            raise Ended
        return Said(*lane.changed(crate, changed, texts))

    for edit, answer in tried(edits, texts, check):
        results.tell(edit, answer)
    lane.end(crate)


def try_all(crates: dict[str, list[Edit]], jobs: int) -> Results:
    """Tries the edits of each crate, those of the crates with most first, as many crates at a time."""
    results, left = Results(), queue.SimpleQueue[list[Edit]]()
    for edits in sorted(crates.values(), key=len, reverse=True):
        left.put(edits)

    def work(copy: str) -> None:
        lane = Lane(TOP, copy)
        while True:
            try:
                edits = left.get_nowait()
            except queue.Empty:
                return
            try_crate(lane, edits, results)

    with tempfile.TemporaryDirectory(prefix="more-edits-") as folder, ThreadPoolExecutor(jobs) as pool:
        lanes = [pool.submit(work, os.path.join(folder, str(number))) for number in range(min(jobs, len(crates)))]
        try:
            for lane in lanes:
                lane.result()
        finally:
            results.is_ended = True
    return results


def main() -> int:
    parser = Words(__doc__)
    parser.add_argument("crates", metavar="CRATE", nargs="*", help="a crate with edits; without any, each of them")
    which = parser.add_mutually_exclusive_group()
    which.add_argument("--gate", action="store_true", help="the gate's edits alone")
    which.add_argument("--more", action="store_true", help="those of more-edits alone")
    parser.add_argument("--jobs", metavar="N", type=int, default=len(os.sched_getaffinity(0)),
                        help="so many checks at a time, of 1 to 4 GB each (one for each processor)")
    options = parser.parse_args()
    origins = (GATE,) if options.gate else (MORE,) if options.more else (GATE, MORE)
    found = {crate: edits_in(TOP, crate, origins) for crate in sorted(os.listdir(os.path.join(TOP, "crates")))}
    known = {crate: edits for crate, edits in found.items() if edits}
    for crate in options.crates:
        if crate not in known:
            raise Refusal(f"{crate} is no crate with such edits")
    if options.jobs < 1:
        raise Refusal("--jobs: a number from 1 on")
    if shutil.which("rt") is None:
        raise Refusal("needs rt, which is not here")
    results = try_all({crate: known[crate] for crate in options.crates or known}, options.jobs)
    print(results.summary())
    sys.stdout.flush()
    return int(results.counts.total() > results.counts[Kind.REFUSED])


if __name__ == "__main__":
    run_command(main)
