"""Which blocks are patched: those that the words choose; without such words all blocks of the program's own files where
it has debugging information, and else each function."""
import argparse

from vaknuhol.arguments import Refusal
from vaknuhol.messages import progress
from vaknuhol.program.blocks import Block
from vaknuhol.program.listing import Listing
from vaknuhol.program.program_file import Program
from vaknuhol.recording.actions import Action
from vaknuhol.recording.block_choice import MOST, add_choices, read_original, wanted_blocks, with_support

HOW = ("functions", "blocks", "jumps", "symbols")


def add_choice(level: argparse.ArgumentParser) -> None:
    add_choices(level, required=False)
    level.add_argument("--own", action="store_true", help="only blocks with a line of the program's own source files; "
                       "with --blocks, the default for a program with debugging information (for others: --functions)")


def is_made(words: argparse.Namespace) -> bool:
    """Whether the words choose blocks, or leave it to this module."""
    return words.own or any(getattr(words, name) for name in HOW)


def complete(words: argparse.Namespace) -> None:
    """Puts the default where the words choose nothing."""
    if not is_made(words):
        progress(f"reading source lines of {words.named}")
        from vaknuhol.program.source_lines import has_own_lines
        words.own = not words.source and has_own_lines(words.program)
        words.blocks = words.own or bool(words.source)
        words.functions = not words.blocks
    elif words.own and not any(getattr(words, name) for name in HOW):
        words.blocks = True


def choice_text(words: argparse.Namespace) -> str:
    """The choice in words, as the command line has them."""
    parts = [f"--{name}" for name in ("functions", "blocks", "jumps", "own", "fast") if getattr(words, name)]
    if words.symbols:
        parts.append(f"--symbols {words.symbols.pattern}")
    if words.within:
        parts.append(f"--within {words.within[0]:x}-{words.within[1]:x}")
    if words.source:
        parts.append(f"--source {words.source}")
    return " ".join(parts)


def own_blocks(path: str, blocks: list[Block], name: str) -> list[Block]:
    """The blocks that have a line of a file of the program's own."""
    from vaknuhol.program.source_lines import with_lines
    kept = with_lines(path, blocks)
    if not kept:
        raise Refusal(f"--own: no such block has a line of a source file of {name}'s own: was it built with -g?")
    return kept


def read_chosen(words: argparse.Namespace, action: Action, folder: str) -> tuple[Program, Listing, list[list[Block]]]:
    """The program, its listing, which is kept in the folder, and the blocks in parts: as many as one file can have in
    each."""
    program, listing = read_original(words.program, folder)
    progress(f"choosing blocks of {words.named}")
    blocks = wanted_blocks(program, listing, words)
    if words.own:
        blocks = own_blocks(words.program, blocks, words.named)
    blocks = with_support(blocks, listing, action, words.threads)
    progress("")
    parts = -(-len(blocks) // MOST)
    each = -(-len(blocks) // parts)
    return program, listing, [blocks[at:at + each] for at in range(0, len(blocks), each)]
