"""The records are of one program and one action. A block's count is the sum over the records that know it, so records
of different choices can be added. The records themselves are kept."""
import argparse

from vaknuhol.levels import Level, add_file, add_output
from vaknuhol.recording.record_folder import expanded, sum_of

NAMES = {"merge": "add up records of several runs"}


def add_words(level: Level, name: str) -> None:
    add_output(level, "sum", metavar="OUT", help="the record to write")
    add_file(level, "records", metavar="RECORD", nargs="+", help="what a run wrote, or a folder of records")


def do(words: argparse.Namespace) -> int:
    sum_of(expanded(words.records)).write(words.sum)
    return 0
