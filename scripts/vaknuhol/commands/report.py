"""Without an option for an output the summary is printed. PROGRAM is the original, with or without symbols. Several
records are added up. If no RECORD is given, those that a stand-in (vaknuhol wrap) has written to PROGRAM.vak/records
are taken or, without such, PROGRAM.vak/last.record. Lines are those of the program's own source files."""
import argparse
import os
from collections.abc import Callable

from vaknuhol.arguments import STANDARD, Refusal
from vaknuhol.commands.run import LAST
from vaknuhol.levels import Level, add_file, add_output
from vaknuhol.messages import note
from vaknuhol.outputs import write_outputs
from vaknuhol.recording.kept_patches import folder_of
from vaknuhol.recording.record_file import Record
from vaknuhol.recording.record_folder import FOLDER, expanded, in_one, note_records, paths_in
from vaknuhol.recording.settling import read_kind
from vaknuhol.views import callgrind, cobertura, drcov, folded, json_report, lcov
from vaknuhol.views.call_text import print_calls
from vaknuhol.views.code_pages import write_code_pages
from vaknuhol.views.coverage import Coverage
from vaknuhol.views.profile import Profile
from vaknuhol.views.record_table import print_histories, print_runs, print_table
from vaknuhol.views.source_pages import write_html
from vaknuhol.views.summary import summary

OUTPUTS = ("lcov", "cobertura", "json", "drcov", "callgrind", "folded", "html")
NAMES = {"report": "show a record, or write it for other programs"}


def add_words(level: Level, name: str) -> None:
    add_file(level, "program", metavar="PROGRAM", help="the original")
    add_file(level, "records", metavar="RECORD", nargs="*",
             help="what a run wrote, or a folder of records; by default PROGRAM.vak/records or PROGRAM.vak/last.record")
    add_output(level, "--lcov", metavar="FILE",
               help="write a tracefile of lines, functions and branches, for lcov and genhtml")
    add_output(level, "--cobertura", metavar="FILE", help="write lines, functions and branches as Cobertura XML")
    add_output(level, "--json", metavar="FILE",
               help="write blocks, lines and functions as JSON, which `gcovr -a` reads too")
    add_output(level, "--drcov", metavar="FILE",
               help="write the executed blocks as DynamoRIO's drcov does, for plugins of IDA, Ghidra, Binary Ninja")
    add_output(level, "--callgrind", metavar="FILE",
               help="write executed instructions, lines, functions and calls, for KCachegrind and callgrind_annotate")
    add_output(level, "--folded", metavar="FILE",
               help="write executed instructions by folded stacks, an estimate, for flamegraph.pl and speedscope")
    add_file(level, "--html", metavar="FOLDER",
             help="write pages for a browser: of source lines, by lcov's genhtml, or without lines of functions and "
                  "instructions")
    add_file(level, "--source", metavar="FOLDER", help="only lines of source files under this folder")
    level.add_argument("--all", action="store_true", help="lines of all source files, libraries included")
    level.add_argument("--per-run", action="store_true", help="print a line for each record, and nothing else")
    level.add_argument("--calls", action="store_true",
                       help="print the call graph, with executed instructions, as gprof does")
    level.add_argument("--table", action="store_true", help="print a line for each block")


def record_of(words: argparse.Namespace) -> Record:
    """The record, or the sum of the records, that the words name."""
    return in_one(paths_of(words), " ".join(words.records) or os.path.join(folder_of(words.program), FOLDER))


def paths_of(words: argparse.Namespace) -> list[str]:
    """The records that the words name; without any, those of stand-ins, or the last."""
    if words.records:
        return expanded(words.records)
    folder = os.path.join(folder_of(words.program), FOLDER)
    found = paths_in(folder)
    if found:
        note_records(folder, len(found))
    last = os.path.join(folder_of(words.program), LAST)
    if not found and not os.path.exists(last):
        read_kind(words.program)
        raise Refusal(f"{last} is not here: vaknuhol cover, count and ring write it where they are called; name a "
                      "record that stands elsewhere")
    return found or [last]


def has_output(words: argparse.Namespace) -> bool:
    return any(getattr(words, name) for name in OUTPUTS)


def refuse_what_it_lacks(coverage: Coverage, words: argparse.Namespace) -> None:
    """A ring has no counts, and a program without debugging information no lines."""
    if coverage.record.action.is_ring and has_output(words):
        raise Refusal(f"{coverage.record.path} is the record of a ring: it has no counts; "
                      "without these options its last events are shown")
    action = coverage.record.action
    for name in ("callgrind", "folded", "calls"):
        if getattr(words, name) and not action.adds:
            raise Refusal(f"--{name}: {coverage.record.path} has no counts: record by vaknuhol count")
        if getattr(words, name) and action.condition:
            raise Refusal(f"--{name}: {coverage.record.path} has only executions where {action.condition}: record "
                          "without --when")
    if (words.lcov or words.cobertura) and not coverage.files:
        raise Refusal("no block has a file and a line: was the program built with -g, and are its files its own "
                      "(--all)?")


def profile_of(coverage: Coverage) -> Profile:
    """The record as a profile; one of the first blocks of functions has counts of calls, and hardly any costs."""
    profile = Profile(coverage)
    if not profile.costs.are_of_functions():
        note("few blocks of these functions were recorded, so their costs are not in it: vaknuhol count --blocks "
             "records all")
    return profile


def refuse_beside_runs(words: argparse.Namespace) -> None:
    """With --per-run nothing else is shown or written."""
    others = [f"--{name}" for name in (*OUTPUTS, "source", "all", "table", "calls") if getattr(words, name)]
    if words.per_run and others:
        raise Refusal(f"{others[0]}: not allowed with argument --per-run")


def do(words: argparse.Namespace) -> int:
    if words.all and words.source:
        raise Refusal("--all: not allowed with argument --source")
    for name in ("table", "calls"):
        if getattr(words, name) and STANDARD in (getattr(words, output) for output in OUTPUTS):
            raise Refusal(f"--{name}: it is printed on standard output, and so is what goes to -")
    refuse_beside_runs(words)
    if words.per_run:
        print_runs([Record(path) for path in paths_of(words)])
        return 0
    coverage = Coverage(words.program, record_of(words), words.source, words.all)
    refuse_what_it_lacks(coverage, words)
    profile = profile_of(coverage) if words.callgrind or words.folded or words.calls else None
    texts: list[tuple[str, Callable[[Coverage], str | bytes]]]
    texts = [(words.lcov, lcov.text), (words.cobertura, cobertura.text), (words.json, json_report.text),
             (words.drcov, drcov.log)]
    of_profiles = [(words.callgrind, callgrind.text), (words.folded, folded.text)]
    write_outputs([(name, text(coverage)) for name, text in texts if name]
                  + [(name, text(profile)) for name, text in of_profiles if name and profile])
    if words.html:
        (write_html if coverage.files else write_code_pages)(words.html, coverage)
    if words.table and coverage.record.action.is_ring:
        print_histories(coverage, True)
    elif words.table:
        print_table(coverage)
    elif profile and words.calls:
        print_calls(profile)
    elif not has_output(words):
        for line in summary(coverage):
            print(line)
    return 0
