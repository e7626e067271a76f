"""Shows a record: a table of blocks (first address, count, site, function, file and line), and with --lcov a tracefile.

PROGRAM is the original, with or without its symbols and debugging information. A block that was left has `left` in
place of its site, and at its end the outcome of the site (NotRelocatable, NoPlan or Shared); its count is solved from
those of the others, or `?`. A source line has the sum, over its copies, of how often it was entered; if no block shows
that it was executed and one was left, the line is unknown, and not in the tracefile.

Of a ring's record it shows what ran last: for each process its last sites, oldest first, with the line of each site. If
a signal ended one, those that ended otherwise are only counted; --all shows them too.
"""
import argparse

from vaknuhol.arguments import Refusal, Words, file_name, output_name
from vaknuhol.outputs import write_whole
from vaknuhol.recording.record_file import Record
from vaknuhol.views import lcov
from vaknuhol.views.coverage import Coverage
from vaknuhol.views.record_table import print_histories, print_lines, print_state, print_summary, print_table


def parse() -> argparse.Namespace:
    parser = Words(__doc__)
    parser.add_argument("program", type=file_name, help="the original, not the patched file")
    parser.add_argument("record", type=file_name, help="the record that run_and_record.py wrote")
    parser.add_argument("--lcov", metavar="FILE", type=output_name, help="write a tracefile for genhtml")
    parser.add_argument("--source", metavar="FOLDER", type=file_name, help="only lines of files under this folder")
    parser.add_argument("--all", action="store_true",
                        help="of a ring's record all processes, those that ended well, too")
    return parser.parse_args()


def show_ring(words: argparse.Namespace, coverage: Coverage) -> None:
    print_histories(coverage, words.all)
    if coverage.record.left:
        print(f"of the blocks {coverage.record.left_text()}: their executions are not among these")
    print_state(coverage.record)


def show_counts(words: argparse.Namespace, coverage: Coverage) -> None:
    if words.lcov and not coverage.files:
        raise Refusal("no block has a file and a line: was the program built with -g?")
    print_table(coverage)
    print_lines(coverage)
    print_summary(coverage.record)
    print_state(coverage.record)
    if words.lcov:
        write_whole({words.lcov: lcov.text(coverage)})


def main() -> None:
    words = parse()
    record = Record(words.record)
    if words.lcov and record.action.is_ring:
        raise Refusal(f"--lcov: {record.path} is of a ring, which has what ran last and not what ran: patch without "
                      "--ring")
    coverage = Coverage(words.program, record, words.source, not words.source)
    (show_ring if record.action.is_ring else show_counts)(words, coverage)
