"""Patches a static program so that it records which of its blocks are executed, or how often, or which last.

All files go to the folder PROGRAM.vak: PROGRAM.cover.patched is the patched program, PROGRAM.cover.report its report
(`count` in place of `cover` with --count, `ring` with --ring, `cover-when` and `count-when` with --when); the lists
starts and sites and the file blocks stand beside them. A site that e9tool's `patch` leaves gives way to another
instruction of its block, in up to four rounds. If the program header table would get too long, e9tool's `load` is
called; with --no-loader, new code is kept nearer and nearer. e9tool is $E9TOOL if that is set, otherwise
crates/e9tool/out/e9tool of this repository, the one in PATH, or the unproved one beside the first.

With --threads e9tool's `threads` is called, with `form:loader` if the table would get too long: the program may have
threads, and nothing recorded is lost. The files are PROGRAM.threads-cover.patched, or with --count
PROGRAM.threads.patched, with --ring PROGRAM.threads-ring.patched (of 65,536 slots, of which the last N are
told), with --when PROGRAM.threads-cover-when.patched or PROGRAM.threads-count-when.patched, and so on.

The exit status is 0 if each chosen block is patched, 1 if some were left, and 2 if something is refused.
"""
import argparse

from vaknuhol.arguments import Words, add_loader, address_range, file_name
from vaknuhol.outputs import write_whole
from vaknuhol.recording.action_options import action_of_words, add_action
from vaknuhol.recording.block_choice import add_choices, read_program
from vaknuhol.recording.patch_files import RunFiles, blocks_text
from vaknuhol.recording.patching import Patching, ThreadPatching
from vaknuhol.recording.thread_use import warn_of_threads


def parse() -> argparse.Namespace:
    parser = Words(__doc__)
    parser.add_argument("program", type=file_name, help="the original, linked by gcc -static -no-pie")
    add_choices(parser)
    add_action(parser)
    parser.add_argument("--threads", action="store_true",
                        help="for a program with threads: each event records in one instruction, or of a ring claims a "
                             "slot and fills it, and no thread disturbs another")
    parser.add_argument("--reserve", metavar="LO-HI", type=address_range, action="append", default=[],
                        help="addresses to keep free of new code; may be repeated")
    add_loader(parser)
    parser.add_argument("--into", metavar="FOLDER", type=file_name,
                        help="the folder to write to, in place of PROGRAM.vak")
    words = parser.parse_args()
    words.action = action_of_words(parser, words)
    if len(words.reserve) > 250:
        parser.error(f"--reserve: {len(words.reserve)} ranges; at most 250 can be given")
    return words


def main() -> int:
    words = parse()
    action = words.action
    program, listing, blocks = read_program(words, words.action)
    print(f"{listing.summary()}; {len(blocks)} blocks chosen", flush=True)
    if not words.threads:
        warn_of_threads(program, listing, words.program)
    files = RunFiles.of_program(words.program, action, words.into, words.threads)
    way = ThreadPatching if words.threads else Patching
    patching = way(words.program, action, blocks, words.reserve, files, words.loader)
    patching.run(listing)
    write_whole({files.blocks: blocks_text(program, action, files, blocks, patching.sites)})
    print(patching.printed, end="")
    if patching.nearness:
        print(f"with the RESERVE {' '.join(patching.nearness)}: without it the file's program header table would be "
              "too long")
    if patching.has_stub():
        print("in the loader form: without it the file's program header table would be too long")
    if patching.left:
        print(f"{len(patching.left)} of {len(blocks)} blocks are left ({patching.left_text()}): no instruction of "
              "theirs could be patched")
    print(f"wrote {files.patched}, and its report {files.report}")
    return 1 if patching.left else 0
