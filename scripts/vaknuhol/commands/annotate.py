"""Each block has its count in the margin, and lines of source, if there are any, stand above their instructions.
Without FUNCTION all functions that were executed are shown, those with the most work first; without symbols they are
those that evidence shows, by their addresses. A function that was inlined everywhere is shown at each place."""
import argparse
import os
import shutil
import subprocess
import sys
from collections.abc import Iterable

from vaknuhol.arguments import Refusal
from vaknuhol.commands.report import record_of
from vaknuhol.levels import Level, add_file, add_output
from vaknuhol.messages import is_coloured
from vaknuhol.outputs import write_outputs
from vaknuhol.views.annotation import Annotation
from vaknuhol.views.annotation_page import page_of
from vaknuhol.views.annotation_text import text_of
from vaknuhol.views.coverage import Coverage

NAMES = {"annotate": "show the disassembly with the counts of a record"}
PAGER = ("less", "-R", "-F", "-X")


def add_words(level: Level, name: str) -> None:
    add_file(level, "program", metavar="PROGRAM", help="the original")
    level.add_argument("function", metavar="FUNCTION", nargs="?",
                       help="only this function, as its symbol or the source names it, or by an address in it")
    add_file(level, "--record", metavar="RECORD", action="append", dest="records", default=[],
             help="what a run wrote, in place of the last record; may be repeated")
    add_output(level, "--html", metavar="FILE", help="write a page for a browser")


def show(lines: Iterable[str]) -> None:
    """On a terminal through $PAGER or less, where there is one."""
    pager = os.environ.get("PAGER", "")
    words = [pager] if pager else list(PAGER)
    if not sys.stdout.isatty() or not shutil.which(words[0]):
        for line in lines:
            print(line)
        return
    with subprocess.Popen(words, stdin=subprocess.PIPE, text=True) as child:
        try:
            for line in lines:
                print(line, file=child.stdin)
            child.communicate()
        except BrokenPipeError:
            pass


def do(words: argparse.Namespace) -> int:
    record = record_of(words)
    if not record.action.is_ring and not record.rows:
        raise Refusal(f"{record.path} has no blocks")
    if record.action.is_ring:
        raise Refusal(f"{record.path} is the record of a ring: it has no counts; vaknuhol report shows its last events")
    annotation = Annotation(Coverage(words.program, record))
    parts = annotation.chosen(words.function)
    if words.html:
        write_outputs([(words.html, page_of(annotation, parts))])
        return 0
    width = shutil.get_terminal_size().columns if sys.stdout.isatty() else None
    show(text_of(annotation, parts, width, is_coloured(sys.stdout)))
    return 0
