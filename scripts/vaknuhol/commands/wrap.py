"""PROGRAM is patched, and PATH becomes an executable that can take the program's place: whoever runs it, in any folder
and with any arguments, runs the patched file with its signals held back, and adds a record to PROGRAM.vak/records; many
may run at once. `vaknuhol report PROGRAM` adds up the records. If a run can't be traced, the patched file runs all the
same, and the first such run says that nothing is recorded. PATH holds the absolute path of the patched file: if you
move that, patch again."""
import argparse
import os
import struct

from vaknuhol.arguments import STANDARD, Refusal
from vaknuhol.commands import run
from vaknuhol.levels import Level, add_file, add_output, whole_number
from vaknuhol.native import program
from vaknuhol.outputs import write_outputs
from vaknuhol.program.kernel import refuse_too_many
from vaknuhol.program.program_file import STAND_IN, read_bytes
from vaknuhol.recording.kept_patches import folder_of
from vaknuhol.recording.record_folder import FOLDER
from vaknuhol.recording.run_file import kept_table

NAMES = {"wrap": "write an executable to put in the program's place, which records each of its runs"}
ALONE = "a stand-in runs one, since a run is made once (with a stand-in for each part, report adds up their records)"
NAME = 4096
FORM = struct.Struct(f"<16s{NAME}s{NAME}s{NAME}sI")
EMPTY = FORM.pack(STAND_IN, b"", b"", b"", 0)


def add_words(level: Level, name: str) -> None:
    hows = level.add_subparsers(dest="how", metavar="cover|count|ring", required=True, parser_class=Level)
    for how, about in run.NAMES.items():
        inner = hows.add_parser(how, help=about, description=__doc__)
        run.add_patch_words(inner, how)
        inner.usage = f"%(prog)s [options]{' N' * (how == 'ring')} PROGRAM -o PATH"
        level.levels[how] = inner
        add_output(inner, "-o", "--output", metavar="PATH", required=True, help="the executable to write")
        add_file(inner, "--records", metavar="FOLDER",
                 help="the folder for the records, in place of PROGRAM.vak/records")
        inner.add_argument("--keep", metavar="N", type=whole_number,
                           help="keep only the newest N records, and remove older ones")
        inner.add_argument("--quiet", action="store_true",
                           help="don't print the executable's name, nor what was patched")


def stand_in(patched: str, run_file: str, records: str, keep: int) -> bytes:
    """The runner, with these names in it (struct stand_in of native/vaknuhol-run/standin.c)."""
    names = [os.fsencode(os.path.realpath(name)) for name in (patched, run_file, records)]
    runner = read_bytes(program("vaknuhol-run"))
    if max(len(name) for name in names) >= NAME:
        raise Refusal("the names of these files are too long for a stand-in")
    if runner.count(EMPTY) != 1:
        raise Refusal("vaknuhol-run has no place for the names of a stand-in: build it again")
    return runner.replace(EMPTY, FORM.pack(STAND_IN, *names, keep))


def patched_file(words: argparse.Namespace) -> tuple[str, str]:
    """The patched file to run, and its run file."""
    kept = run.kept_of(words, ALONE)
    (part,) = kept.parts
    if part.entries() > kept.runs_here:
        refuse_too_many(part.files.patched, part.entries(), kept.runs_here)
    return part.files.patched, kept_table(part.files, part.report, part.run)


def do(words: argparse.Namespace) -> int:
    words.command = words.how
    path, table = patched_file(words)
    records = words.records or os.path.join(words.into or folder_of(words.program), FOLDER)
    os.makedirs(records, exist_ok=True)
    write_outputs([(words.output, stand_in(path, table, records, words.keep or 0))], is_program=True)
    if words.output != STANDARD and not words.quiet:
        print(words.output)
    return 0
