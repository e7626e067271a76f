"""A run of a program that is patched for threads, judged step by step by the premises of the theorem of guests of
several threads (native/vaknuhol-judge), and the line that says what came of it."""
import argparse
import os
import struct
import subprocess
from collections.abc import Iterator

from vaknuhol.arguments import Refusal
from vaknuhol.messages import note, progress
from vaknuhol.native import program as native_program
from vaknuhol.outputs import write_whole
from vaknuhol.program.listing import Listing
from vaknuhol.program.program_file import PT_LOAD, read_bytes, read_text
from vaknuhol.recording.event_undo import SLOT_CLAIMED, recorded_at, undo_of
from vaknuhol.recording.original_headers import told_to_original
from vaknuhol.recording.patch_report import Report
from vaknuhol.recording.patching import RESERVES, check_mode, find_tool, threads_action
from vaknuhol.recording.run_file import comparisons_of
from vaknuhol.recording.run_recorder import ENDS, NOT_RECORDED

NO_EVENT = "0 0"
COUNTED = {"yes": "the record is right", "gone": "its record can't be read any more"}
ENDINGS = {**ENDS, "process": "there it starts a process that shares its memory, which is no thread"}


def loaded(path: str) -> list[tuple[int, int]]:
    """The addresses that loading a file gives: from each first one to an end."""
    data = read_bytes(path)
    table, count = struct.unpack_from("<Q", data, 32)[0], struct.unpack_from("<H", data, 56)[0]
    entries = [struct.unpack_from("<IIQQQQQQ", data, table + 56 * number) for number in range(count)]
    return sorted((entry[3], entry[3] + entry[6]) for entry in entries if entry[0] == PT_LOAD and entry[6])


def new_ranges(original: str, patched: str) -> Iterator[tuple[int, int]]:
    """The addresses that the patched file has and the original hasn't."""
    old = loaded(original)
    for low, high in loaded(patched):
        for start, end in old:
            if low < start < high:
                yield low, start
            if start < high and low < end:
                low = max(low, end)
        if low < high:
            yield low, high


def write_facts(original: str, listing: Listing, folder: str) -> None:
    """What the judge has to know of the patched file, in the lines that native/vaknuhol-judge/facts.h tells."""
    report = Report(f"{folder}/report")
    lines = [f"start {addr:x}" for addr in listing.addr]
    lines += [f"new {low:x} {high:x}" for low, high in new_ranges(original, f"{folder}/patched")]
    headers, count, entry = told_to_original(report, f"{folder}/patched")
    lines += [f"private {report.private:x}", f"told {headers:x} {count} {entry:x}",
              f"event {recorded_at(report.action)} {4 if report.action.is_ring else report.action.length(1)}"]
    lines += [f"ring {report.action.slots} {SLOT_CLAIMED}"] * report.action.is_ring
    lines += [f"when {register} {sign} {value}" for register, sign, value in comparisons_of(report.action)]
    length = len(undo_of(report.action, True))
    lines += [f"site {start:x} {place:x} {NO_EVENT if number is None else f'{number} {length}'}"
              for place, start, number in report.trampolines()]
    write_whole({f"{folder}/facts": "\n".join(lines) + "\n"})


def patch_for_threads(words: argparse.Namespace, folder: str) -> None:
    """Patches the program for threads; its trampolines lie closer together where the table would be too long."""
    progress("patching")
    tool, names = find_tool(), [words.program, *(f"{folder}/{name}" for name in ("starts", "sites", "patched"))]
    for reserve in RESERVES:
        done = subprocess.run([tool, "threads", *names, *threads_action(words.action),
                               f"report:{folder}/report", *reserve], capture_output=True, text=True, check=False)
        if " TooManySegments " not in done.stdout:
            break
    if done.returncode not in (0, 1):
        raise Refusal(f"e9tool answers: {(done.stdout or done.stderr).strip() or done.returncode}")
    check_mode(tool, f"{folder}/report", True)
    os.chmod(f"{folder}/patched", 0o755)


class JudgedRun:
    """What the judge says of a run, by names, and the system calls of which it doesn't know what they read or write."""

    def __init__(self, path: str) -> None:
        pairs = [line.split(" ", 1) for line in read_text(path).splitlines()]
        self.told = {name: value for name, value in pairs if name != "unknown"}
        self.unknown = [value for name, value in pairs if name == "unknown"]
        self.broken, self.doubts = self.told.get("broken", ""), int(self.told["doubts"])
        self.is_counted = self.told.get("counters") in COUNTED

    def length(self) -> str:
        """How long the run is, in words."""
        threads = int(self.told["threads"])
        return (f"{self.told['steps']} steps of {threads} thread{'s' * (threads > 1)}, {self.told['events']} events, "
                f"{self.told['deliveries']} deliveries")

    def how_it_ended(self) -> tuple[str, bool]:
        """How the judged part of the run ends, and whether the theorem can speak of it."""
        end = self.told["end"]
        if end.startswith("signal"):
            return f"there it gets {end}, for which it has no handler", False
        return ENDINGS.get(end, f"there the program ends ({end})"), end != "process"

    def reach(self) -> str:
        """Of which steps the theorem speaks, in words."""
        count, _, limit = self.told["covered"].partition(" ")
        return f"the theorem speaks of the first {count}, {limit}" if limit else "the theorem speaks of all of them"

    def line(self) -> str:
        if self.broken:
            return f"premises of threads: BROKEN: {self.broken} ({self.length()}); {self.reach()}"
        record = COUNTED.get(self.told["counters"], f"THE RECORD IS WRONG: {self.told['counters']}")
        rest = f"{self.length()}; {self.reach()}; {record}; {self.how_it_ended()[0]}"
        if not self.doubts:
            return ("premises of threads: they hold at each step, and both runs get the same answers as far as memory "
                    f"tells: {rest}")
        others = f", as do {self.doubts - 1} more" * (self.doubts > 1)
        return ("premises of threads: the run MAY HAVE GONE ANOTHER WAY than the original's, which may get other "
                f"answers: {self.told['doubt']}{others}: {rest}")

    def is_covered(self) -> bool:
        return not self.broken and not self.doubts and self.is_counted and self.how_it_ended()[1]

    def tell_notes(self) -> None:
        """What isn't looked at."""
        if self.unknown:
            note(f"what these system calls read or write isn't known, so it wasn't judged: {', '.join(self.unknown)}")


def judge(words: argparse.Namespace, listing: Listing, folder: str) -> int:
    """Patches the program for threads, runs it once under the judge, and says whether its run met the premises."""
    patch_for_threads(words, folder)
    write_facts(words.program, listing, folder)
    progress("judging: the patched program runs once, step by step\n")
    kept = {name: value for name, value in os.environ.items() if name != "GLIBC_TUNABLES"}
    command = [native_program("vaknuhol-judge"), f"{folder}/result", words.program, f"{folder}/facts",
               str(words.steps), *(["--evex"] if words.evex else []), f"{folder}/patched", *words.words]
    if subprocess.run(command, env=kept, check=False).returncode != 0:
        raise SystemExit(NOT_RECORDED)
    run = JudgedRun(f"{folder}/result")
    progress("")
    run.tell_notes()
    print(run.line())
    return 0 if run.is_covered() else 1
