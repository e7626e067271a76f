"""Runs a patched program and writes its record when it ends: a line for each block with its count.

With cover a count is 0 or 1; with count it is how often the block was executed. The record of a ring has the last
events of each process in place of counts. The program's input, output and status are its own: this script ends with the
same status, or with 128 and the signal's number, and with 125 if it refuses something. All processes that the program
starts are followed and waited for: the record is their sum. It is read by ptrace as they end, however they end. While
they run it is written every two seconds, as it is by then.
"""
import argparse
import os
import shutil

from vaknuhol.arguments import Words, file_name, output_name
from vaknuhol.outputs import as_file, runnable
from vaknuhol.recording.patch_files import Run
from vaknuhol.recording.patch_report import Report
from vaknuhol.recording.run_file import passing_table
from vaknuhol.recording.runner import run_recorded

REFUSED = 125


def parse() -> argparse.Namespace:
    parser = Words(__doc__)
    parser.add_argument("report", type=file_name, help="the report of the patch, PROGRAM.vak/PROGRAM.ACTION.report")
    parser.add_argument("record", type=output_name, help="the file to write")
    parser.add_argument("program", type=file_name, help="the patched program, PROGRAM.vak/PROGRAM.ACTION.patched")
    parser.add_argument("words", nargs="...", metavar="ARGUMENTS", help="the program's arguments")
    return parser.parse_args()


def check_program(path: str, report: Report, run: Run) -> None:
    """Refuses a program that isn't the patched file of the report, and lets it be executed."""
    run.check_patched(path, report)
    if not os.access(path, os.X_OK):
        os.chmod(path, runnable(os.stat(path).st_mode))


def main() -> int:
    words = parse()
    path = shutil.which(words.program, mode=os.F_OK) or words.program
    report = Report(words.report)
    run = Run(report)
    check_program(path, report, run)
    with as_file(words.record) as record, passing_table(report, run, path) as table:
        return run_recorded(table, path, [words.program, *words.words], record)[0]
