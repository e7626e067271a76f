"""PROGRAM is patched at the chosen blocks and run with ARGUMENTS; what it recorded is shown on standard error. Its
input, output and status stay its own. The patched file is kept in PROGRAM.vak, and used again as long as program,
choice and tool are the same. The record is written to PROGRAM.vak/last.record, where `vaknuhol report PROGRAM` finds
it."""
import argparse
import os
import sys

from vaknuhol.arguments import Refusal, add_loader, address_range
from vaknuhol.levels import Level, add_file, add_output, whole_number
from vaknuhol.messages import manner, note
from vaknuhol.outputs import as_file
from vaknuhol.recording.action_options import action_of_type
from vaknuhol.recording.actions import Action, action_of
from vaknuhol.recording.default_choice import add_choice, complete
from vaknuhol.recording.kept_patches import Kept, folder_of
from vaknuhol.recording.runs import run
from vaknuhol.recording.settling import add_base, base_of, read_kind, settled
from vaknuhol.recording.thread_use import started_by
from vaknuhol.views.coverage import Coverage
from vaknuhol.views.summary import summary

NAMES = {"cover": "show which blocks are executed", "count": "count how often each block is executed",
         "ring": "keep the last N executions, in order, of all chosen blocks"}
STATUS = ("exit status: the program's own, or 128 and the number of the signal that ended it; "
          "125 if something is refused")
LAST = "last.record"
MOST_RESERVES = 200


def add_patch_words(level: Level, name: str) -> None:
    """The words that say what is patched, and what is recorded."""
    level.usage = f"%(prog)s [options]{' N' * (name == 'ring')} PROGRAM [-- ARGUMENTS...]"
    if name == "ring":
        level.add_argument("slots", metavar="N", type=action_of_type("ring:{}"), help="how many executions: 1 to 65536")
    else:
        level.add_argument("--when", metavar="C", type=action_of_type("cover when {}"),
                           help="record only executions in which registers meet C: one to three comparisons, as in "
                                "'rdi == 2 and rsi < 100'")
    add_file(level, "program", metavar="PROGRAM", help="the original, linked by gcc -static, or -static-pie")
    add_choice(level)
    how = "claims a slot of the ring, fills it" if name == "ring" else "records in one instruction"
    level.add_argument("--threads", action=argparse.BooleanOptionalAction,
                       help=f"patch for threads: each event {how}, and disturbs no other thread; by default, if the "
                       "program starts threads")
    level.add_argument("--reserve", metavar="LO-HI", type=address_range, action="append", default=[],
                       help="addresses to keep free of new code; may be repeated")
    add_base(level)
    add_loader(level)
    level.add_argument("--entries", metavar="N", type=whole_number,
                       help="write at most N program headers, for a kernel that takes no more (Debian 12: 73); by "
                            "default, as many as the running kernel takes")
    add_file(level, "--into", metavar="FOLDER", help="the folder for all files, in place of PROGRAM.vak")
    if name == "count":
        level.add_argument("--fast", action="store_true",
                           help="patch only as many blocks as it takes to work out the other counts, so that the run "
                           "costs less; if a signal or another thread's exit ends a block in its middle, counts near "
                           "it are off by one")
    level.set_defaults(slots=None, when=None, fast=False)


def add_words(level: Level, name: str) -> None:
    add_patch_words(level, name)
    level.add_argument("--patch-only", action="store_true",
                       help="patch, print the name of the patched file, and don't run it")
    level.add_argument("--quiet", action="store_true", help="no summary")
    add_output(level, "--record", metavar="FILE", help="the record to write, in place of PROGRAM.vak/last.record")


def refuse_fast(words: argparse.Namespace) -> None:
    """What isn't counted at each block alike can't be worked out."""
    if words.fast and words.when:
        raise Refusal("--fast: the counts of a condition don't follow from each other: leave out --when")
    if words.fast and (words.functions or words.symbols or words.jumps):
        raise Refusal("--fast: choose --blocks or --own: only the counts of blocks beside each other follow from each "
                      "other")


def action_of_words(words: argparse.Namespace) -> Action:
    """What the record tells."""
    if words.slots:
        return action_of(f"ring:{words.slots}")
    return action_of(f"{words.command} when {words.when}" if words.when else words.command)


def prepare_folder(folder: str) -> None:
    """Refuses a folder in which nothing can be written, by its own name."""
    try:
        os.makedirs(folder, exist_ok=True)
    except OSError as error:
        raise Refusal(f"{folder} can't be made: {error.strerror}; --into names another folder") from None
    if not os.access(folder, os.W_OK | os.X_OK):
        raise Refusal(f"{folder} can't be written: --into names another folder")


def choose_threads(words: argparse.Namespace) -> None:
    """Where the words leave it open, a program that starts threads is patched for them."""
    if words.threads is None:
        started = started_by(words.program, words.into or folder_of(words.named))
        words.threads = bool(started)
        if started:
            note(f"{words.named} has {started}, so it is patched for threads (--no-threads leaves that)")
    words.threads = bool(words.threads)


def settle_program(words: argparse.Namespace) -> None:
    """Puts the settled file in place of a static PIE, whose name is kept as `named`."""
    words.named = words.program
    words.program = settled(words.named, words.into or folder_of(words.named), words.base)
    words.settled_at = base_of(words.program) if words.program != words.named else None
    if words.settled_at is not None:
        note(f"{words.named} is position independent: patched at base {words.settled_at:x}, not randomised")


def record_path(words: argparse.Namespace) -> str:
    return words.record or os.path.join(words.into or folder_of(words.program), LAST)


def kept_of(words: argparse.Namespace, alone: str = "", is_run: bool = False) -> Kept:
    """The patched files that the words ask for; `alone` says why there may be one only, where that is so. A program
    that may not be executed isn't run, as it wouldn't be without us."""
    read_kind(words.program)
    if is_run and not os.access(words.program, os.X_OK):
        raise Refusal(f"{words.program} may not be executed: chmod +x, or --patch-only")
    prepare_folder(words.into or folder_of(words.program))
    settle_program(words)
    choose_threads(words)
    action = action_of_words(words)
    complete(words)
    refuse_fast(words)
    return Kept(words, action, alone)


def do(words: argparse.Namespace) -> int:
    kept = kept_of(words, is_run=not words.patch_only)
    if words.patch_only:
        for part in kept.parts:
            print(part.files.patched)
        return 0
    with as_file(record_path(words)) as path:
        status, record = run(kept, [words.named, *(words.own_words or [])], path)
        del kept  # its reports take more room than the record
    manner.results = sys.stderr
    if record and not words.quiet:
        for line in summary(Coverage(words.named, record, words.source, folder=words.into)):
            print(line, file=sys.stderr)
    return status
