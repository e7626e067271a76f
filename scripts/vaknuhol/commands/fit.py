"""What may go wrong with a patched PROGRAM is reported before it is patched: how it is linked, threads, signal
handlers, text that is no code or is read as data, instructions without a known length. With `--` the program itself
also runs with ARGUMENTS under single steps; each executed instruction that isn't listed as code is reported, each byte
of listed code that is read as data, memory that is mapped where a patch may lie, a trap flag that it sets, threads and
restartable sequences that can't be seen without a run."""
import argparse
import bisect
import os

from vaknuhol.arguments import Refusal
from vaknuhol.levels import Level, add_file
from vaknuhol.messages import progress
from vaknuhol.program.fitness import count_of, findings
from vaknuhol.program.kernel import most_entries
from vaknuhol.program.listing import Listing
from vaknuhol.program.program_file import Program
from vaknuhol.program.settled import STUB
from vaknuhol.program.stepped_run import SteppedRun, findings_of_run
from vaknuhol.recording.kept_patches import folder_of
from vaknuhol.recording.settling import add_base, settled
from vaknuhol.recording.thread_use import threads_of

NAMES = {"fit": "report obstacles to patching a program"}
STATUS = "exit status: 0 if no obstacle to patching is seen, else 1; 2 if something is refused"
STEPS = 300_000


def number_of_steps(text: str) -> int:
    if not (text.isascii() and text.isdigit()):
        raise Refusal(f"--steps {text}: a whole number is needed, 0 for the whole run")
    return int(text)


def add_words(level: Level, name: str) -> None:
    level.usage = "%(prog)s [options] PROGRAM [-- ARGUMENTS...]"
    add_file(level, "program", metavar="PROGRAM", help="the original")
    add_base(level)
    level.add_argument("--steps", metavar="N", type=number_of_steps, default=STEPS,
                       help="with ARGUMENTS: how many single steps to make, 0 for the whole run "
                            f"({STEPS}: some seconds)")


def print_run(run: SteppedRun, listing: Listing, threads: str) -> bool:
    """Prints what the steps show; whether that is an obstacle to patching."""
    print(run.summary())
    found = findings_of_run(run, listing, threads)
    for finding in found:
        print(f"obstacle: {finding.text}")
    if not any(run.rows(word) for word in ("unlisted", "read")):
        print("run: each executed instruction is listed, and no listed byte was read as data")
    return bool(found)


def do(words: argparse.Namespace) -> int:
    path, folder = words.program, folder_of(words.program)
    try:
        file = settled(path, folder, words.base)
        program = Program(file)
    except Refusal as refusal:
        print(f"obstacle: {refusal}")
        return 1
    progress(f"reading {path}")
    listing = Listing(file, folder)
    columns, threads = listing.file, threads_of(program, listing)
    progress("")
    first = bisect.bisect_left(listing.addr, program.base)  # behind the stub of a settled file
    blocks = len(columns.block_first) - bisect.bisect_left(columns.block_first, first)
    print(f"{path}: static, {count_of(columns.text_bytes - (STUB if program.base else 0), 'byte')} of text, "
          f"{count_of(len(listing.addr) - first, 'instruction')}, {count_of(blocks, 'block')}; not listed: "
          f"{count_of(columns.text_bytes - columns.listed_bytes, 'byte')}")
    if file != path:
        print(f"note: it is position independent: cover, count and ring patch it at base {program.base:x}, where it "
              "isn't randomised")
    if threads:
        print(f"note: it has {threads}: cover, count and ring choose --threads by themselves")
    progress(f"looking for obstacles in {path}")
    found = findings(listing)
    progress("")
    for finding in found:
        print(f"{'obstacle' if finding.is_against else 'note'}: {finding.text}")
    print(f"note: this kernel takes {most_entries(os.curdir)} program headers; a file that needs more gets the loader "
          "form")
    is_against = any(finding.is_against for finding in found)
    if words.own_words is not None:
        progress("stepping: the program runs once, as it is\n")
        run = SteppedRun(file, words.own_words, words.steps, folder)
        progress("")
        is_against |= print_run(run, listing, threads)
    if not is_against:
        print("no obstacle to patching it was seen" + ("; with -- ARGUMENTS a run is looked at, too"
                                                       if words.own_words is None else ""))
    return 1 if is_against else 0
