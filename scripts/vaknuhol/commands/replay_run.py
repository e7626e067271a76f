"""Records a real run of a static program on this processor, and lets e9tool's `step` make it again, of the original and
of the patched file.

It prints four lines: how long the run is; whether it met the premises of the theorem, or at which step it broke one;
whether processor and model agree; whether original and patched file look alike at the outside state of the same number.
The program runs once, as it is, with its own input and output; handlers of its signals are entered and left again.
Sites are all direct jumps, if nothing else is chosen; they are covered, or recorded as --count, --ring and --when say.
With --threads the program is patched for threads, and all its threads are stepped in turn. Then one line is printed:
whether the run met the premises of their theorem, or which step broke one, of which thread, at which address.
The exit status is 0 if all is well, otherwise 1.
"""
import argparse
import os
import shutil
import subprocess
import tempfile

from vaknuhol.arguments import Refusal, Words
from vaknuhol.messages import progress
from vaknuhol.outputs import write_whole
from vaknuhol.program.listing import Listing
from vaknuhol.recording.action_options import action_of_words, add_action
from vaknuhol.recording.block_choice import add_choices, read_program
from vaknuhol.recording.patch_report import Report
from vaknuhol.recording.patching import RESERVES, find_tool, list_text
from vaknuhol.recording.replay import MOST_STEPS, Steps, agreement, likeness, likeness_at, premises
from vaknuhol.recording.run_path import PatchedSteps
from vaknuhol.recording.run_recorder import RecordedRun, record, reserves, write_with_dues
from vaknuhol.recording.thread_run import judge


def parse() -> argparse.Namespace:
    parser = Words(__doc__)
    parser.add_argument("program")
    parser.add_argument("words", nargs=argparse.REMAINDER, metavar="ARGUMENTS", help="the program's arguments")
    add_choices(parser, required=False)
    add_action(parser)
    parser.add_argument("--steps", type=int, default=500_000, metavar="N", help="record at most N steps (500000)")
    parser.add_argument("--every", type=int, default=1000, metavar="N",
                        help="keep the processor's state after each N steps (1000)")
    parser.add_argument("--evex", action="store_true", help="let the program see AVX-512, if the processor has it")
    parser.add_argument("--full", action="store_true", help="compare all memory at each asked instruction (slow)")
    parser.add_argument("--threads", action="store_true",
                        help="step all threads of the program as patched for threads, and judge their run")
    parser.add_argument("--keep", metavar="FOLDER",
                        help="leave the files in this folder: world, states, path, starts, sites, patched, report, "
                             "patched-world; with --threads facts and result")
    words = parser.parse_args()
    words.action = action_of_words(parser, words)
    words.jumps = words.jumps or not (words.functions or words.blocks or words.symbols)
    if not 1 <= words.steps <= MOST_STEPS or words.every < 1:
        parser.error(f"--steps is from 1 to {MOST_STEPS}, and --every from 1 on")
    words.program = os.path.realpath(shutil.which(words.program, mode=os.F_OK) or words.program)
    return words


def list_starts(words: argparse.Namespace, folder: str) -> Listing:
    """Writes the starts and the chosen sites; the listing."""
    _, listing, blocks = read_program(words, words.action)
    write_whole({f"{folder}/sites": list_text(sorted(block.site for block in blocks)),
                 f"{folder}/starts": listing.starts_text()})
    return listing


def patch(e9tool: str, words: argparse.Namespace, folder: str) -> tuple[int, int]:
    """Patches the program with no new code where the run has its own memory; how many sites are patched, and of how
    many."""
    progress("patching")
    names = [words.program, *(f"{folder}/{name}" for name in ("starts", "sites"))]
    names += [words.action.name, *(f"{folder}/{name}" for name in ("patched", "report"))]
    for reserve in RESERVES:
        done = subprocess.run([e9tool, "patch", *names, *reserves(f"{folder}/world"), *reserve],
                              capture_output=True, text=True, errors="replace", check=False)
        if " TooManySegments " not in done.stdout:
            break
    if done.returncode not in (0, 1):
        raise Refusal(f"e9tool answers: {(done.stdout or done.stderr).strip() or done.returncode}")
    counts = done.stdout.split()
    return int(counts[3]), int(counts[1])


def compare(words: argparse.Namespace, folder: str, original: Steps, starts: frozenset[int], quiet: int,
            recorded: RecordedRun, sites: tuple[int, int]) -> tuple[bool, str]:
    """Whether original and patched file look alike at the end, and as the delivery in the middle comes, and the line
    that says so."""
    counts = PatchedSteps(words.program, words.action, Report(f"{folder}/report") if sites[0] else None)
    made, world = counts.up_to(recorded.path, {quiet, *recorded.dues}), f"{folder}/world"
    if recorded.dues:
        world = f"{folder}/patched-world"
        write_with_dues(f"{folder}/world", world, made)
    patched = Steps(find_tool(), f"{folder}/patched", f"{folder}/starts", world, "patched file")
    alike, looks = likeness(original, patched, starts, quiet, made[quiet], sites)
    dues = [steps for steps in recorded.dues if steps < quiet]
    if not alike or not dues:
        return alike, looks
    middle = len(dues) // 2
    return likeness_at(original, patched, middle + 1, (dues[middle], made[dues[middle]]), looks)


def replay(words: argparse.Namespace, folder: str) -> int:
    e9tool, listing = find_tool(), list_starts(words, folder)
    if words.threads:
        return judge(words, listing, folder)
    starts = listing.starts
    recorded = record(words.program, words, folder)
    ended, whole = recorded.how_it_ended()
    sites = patch(e9tool, words, folder)
    original = Steps(e9tool, words.program, f"{folder}/starts", f"{folder}/world", "original")
    quiet, held = premises(words.program, starts, original, recorded)
    agree, agreed = agreement(original, recorded)
    alike, looks = False, "original and patched file: not compared"
    if quiet >= 0:
        alike, looks = compare(words, folder, original, starts, quiet, recorded, sites)
    progress("")
    print(f"run: {recorded.told()}; {ended}")
    print(held, agreed, looks, sep="\n")
    return 0 if whole and quiet == recorded.steps and agree and alike else 1


def main() -> int:
    words = parse()
    if words.keep:
        os.makedirs(words.keep, exist_ok=True)
        return replay(words, os.path.realpath(words.keep))
    with tempfile.TemporaryDirectory() as folder:
        return replay(words, folder)
