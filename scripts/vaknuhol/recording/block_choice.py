"""The words that choose blocks of a program, and the blocks that they choose."""
import argparse
import re
from typing import Optional

from vaknuhol.arguments import Refusal, address_range, file_name, regular_expression
from vaknuhol.messages import note, progress
from vaknuhol.program.blocks import Block, blocks_of
from vaknuhol.program.listing import Listing
from vaknuhol.program.listing_file import BRANCH, JUMP, KERNEL, RESTARTED
from vaknuhol.program.program_file import Program
from vaknuhol.recording.actions import Action
from vaknuhol.recording.site_choice import with_sites

MOST, WRITTEN = 65536, 0x20000


def add_choices(parser: argparse.ArgumentParser, required: bool = True) -> None:
    """The words that choose blocks."""
    how = parser.add_mutually_exclusive_group(required=required)
    how.add_argument("--functions", action="store_true",
                     help="the first block of each function: of what has a name or is called")
    how.add_argument("--blocks", action="store_true", help="each basic block")
    how.add_argument("--jumps", action="store_true", help="the blocks that end in a direct jump")
    how.add_argument("--symbols", metavar="REGEX", type=regular_expression,
                     help="the functions whose whole name matches")
    parser.add_argument("--within", metavar="LO-HI", type=address_range,
                        help="only blocks from LO on and below HI, hexadecimal")
    parser.add_argument("--source", metavar="FOLDER", type=file_name,
                        help="only blocks with a line of a source file under this folder, of a program built with -g")


def named_blocks(path: str, blocks: list[Block], listing: Listing, pattern: re.Pattern[str]) -> list[Block]:
    """The first block of each function whose whole name is of a form, and the blocks in which calls of such a function
    that were inlined begin."""
    from vaknuhol.recording.inlined_choice import inlined_blocks
    firsts = {addr for addr, name in listing.functions if pattern.fullmatch(name) and listing.is_start(addr)}
    inlined = inlined_blocks(path, blocks, pattern)
    if not firsts and not inlined:
        raise Refusal(f"--symbols {pattern.pattern}: no function's name is of this form")
    return [b for b in blocks if b.first in firsts or b.first in inlined]


def choose(path: str, listing: Listing, words: argparse.Namespace) -> list[Block]:
    """The blocks that the words of a command choose."""
    blocks = [b for b in blocks_of(listing, words.functions) if b.first >= listing.program.base]  # none of a front
    if words.symbols:
        blocks = named_blocks(path, blocks, listing, words.symbols)
    elif words.jumps:
        blocks = [b for b in blocks if listing.kind[b.last] in (JUMP, BRANCH) and listing.target[b.last]]
    if words.within:
        low, high = words.within
        blocks = [b for b in blocks if low <= b.first < high]
    return blocks


def read_original(path: str, folder: Optional[str] = None) -> tuple[Program, Listing]:
    """A program that may be patched, and its listing, which is kept in the folder."""
    program = Program(path)
    if program.has_segment_below(WRITTEN):
        raise Refusal(f"{path} has a segment below {WRITTEN:#x}, as a patched file has: name the original")
    progress(f"reading {path}")
    return program, Listing(path, folder)


def is_restarted(block: Block, listing: Listing) -> bool:
    """Whether a block is one of a restartable sequence, or stands before one."""
    return any(block.first < span.high and span.low <= block.end for span in listing.ranges(RESTARTED))


def with_support(blocks: list[Block], listing: Listing, action: Action, for_threads: bool = False) -> list[Block]:
    """The blocks in which a site may stand, with the best; how many others there are is told. A system call is a block
    of its own. For threads it is none of these: the thread that a clone begins would begin within a trampoline, and
    which call it is shows only as it is made."""
    tried = [block for block in blocks if not for_threads or listing.kind[block.number] != KERNEL]
    kept = with_sites(tried, listing, action)
    if not kept:
        why = "stands beside bytes that may be no code" if tried else "is a system call"
        raise Refusal(f"each of these blocks {why}, so none is patched: choose others (--help)")
    firsts = {block.first for block in kept}
    lost = [block for block in tried if block.first not in firsts]
    restarted = [block for block in lost if is_restarted(block, listing)]
    for count, what in ((len(restarted), "of restartable sequences (rseq)"),
                        (len(blocks) - len(tried), "that may begin a thread (system calls)"),
                        (len(lost) - len(restarted), "beside bytes that are not listed as code")):
        if count:
            note(f"{count} block{'s' * (count > 1)} {what} {'are' if count > 1 else 'is'} not patched")
    return kept


def wanted_blocks(program: Program, listing: Listing, words: argparse.Namespace) -> list[Block]:
    """The blocks that the words choose: one at least."""
    blocks = choose(program.path, listing, words)
    if words.source:
        from vaknuhol.program.source_lines import with_lines
        blocks = with_lines(program.path, blocks, words.source)
    if not blocks:
        raise Refusal("no such block is there: choose others (--help)")
    return blocks


def read_program(words: argparse.Namespace, action: Action) -> tuple[Program, Listing, list[Block]]:
    """The program that the words name, its listing, and the blocks that they choose: as many as one file can have."""
    program, listing = read_original(words.program)
    blocks = with_support(wanted_blocks(program, listing, words), listing, action, getattr(words, "threads", False))
    if len(blocks) > MOST:
        last = blocks[MOST].first
        raise Refusal(f"{len(blocks)} blocks; at most {MOST} can be patched: --within 0-{last:x} keeps the first of "
                      "them")
    progress("")
    return program, listing, blocks
