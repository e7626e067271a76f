"""Writes the lists STARTS and SITES of a static program.

STARTS has the address of every instruction that there is evidence for, and of each one that a direct jump enters after
the first byte of another one, as a jump past a lock prefix does. Bytes without evidence are left out and reported.
SITES has an instruction of each block that --functions, --blocks, --jumps or --symbols choose: the one that is patched
most surely, since all instructions of a block are executed equally often. With --ring and --when it stands at the
block's front, where nothing can have faulted yet, and no register of the condition have changed.
"""
import sys

from vaknuhol.arguments import STANDARD, Words, file_name, output_name
from vaknuhol.outputs import write_outputs
from vaknuhol.recording.action_options import action_of_words, add_action
from vaknuhol.recording.block_choice import add_choices, read_program
from vaknuhol.recording.patching import list_text


def main() -> None:
    parser = Words(__doc__)
    parser.add_argument("program", type=file_name)
    parser.add_argument("starts", type=output_name, help="the file to write STARTS to")
    parser.add_argument("sites", type=output_name, help="the file to write SITES to")
    add_choices(parser)
    add_action(parser)
    words = parser.parse_args()
    action = action_of_words(parser, words)
    _, listing, blocks = read_program(words, action)
    sites = sorted(block.site for block in blocks)
    write_outputs([(words.sites, list_text(sites)), (words.starts, listing.starts_text())])
    told = sys.stderr if STANDARD in (words.starts, words.sites) else sys.stdout
    print(f"{listing.summary()}; {len(sites)} sites", file=told)
