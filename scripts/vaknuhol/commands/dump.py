"""The process is not stopped; dump it as often as you like. The record of a core file is what was executed up to the
crash. The report is found by the patched file's name. The record is written and, if its program is known, shown."""
import argparse
import os
import subprocess
import sys

from vaknuhol.arguments import STANDARD, Refusal
from vaknuhol.levels import Level, add_file, add_output
from vaknuhol.native import program as own_program
from vaknuhol.outputs import as_file
from vaknuhol.recording.kept_patches import program_of
from vaknuhol.recording.patch_files import Run, RunFiles
from vaknuhol.recording.patch_report import Report
from vaknuhol.recording.process_memory import Core, Process
from vaknuhol.recording.record_file import Record, record_rows, signal_name, write_record
from vaknuhol.views.coverage import Coverage
from vaknuhol.views.summary import summary

NAMES = {"dump": "read what a running process, or a core file, has recorded so far"}


def add_words(level: Level, name: str) -> None:
    add_file(level, "of", metavar="PID|CORE", help="the number of a process, or a core file (a file named 12 is ./12)")
    add_file(level, "--report", metavar="REPORT", help="the report of the patched file, if it isn't found by name")
    add_output(level, "--record", metavar="FILE",
               help="the record to write, in place of PID.record or CORE.record")
    add_file(level, "--program", metavar="PROGRAM", help="the original, if it isn't known")
    level.add_argument("--detach", action="store_true",
                       help="let the process run on without its runner; it can be dumped again later")
    level.add_argument("--quiet", action="store_true", help="no summary")


def detach(pid: int) -> None:
    """The runner of a process lets it go; its memory can be read as before."""
    done = subprocess.run([own_program("vaknuhol-run"), "--detach", str(pid)], stderr=subprocess.PIPE, text=True,
                          check=False)
    if done.returncode:
        raise Refusal(f"--detach {done.stderr.strip().partition(': ')[2]}")


def do(words: argparse.Namespace) -> int:
    source: Process | Core = Process(int(words.of)) if words.of.isascii() and words.of.isdigit() else Core(words.of)
    report = Report(words.report or RunFiles(source.stem()).report)
    run = Run(report)
    source.check(run, report)
    if words.detach:
        if isinstance(source, Core):
            raise Refusal("--detach: a core file has no runner")
        detach(source.pid)
    addr, length = report.record_place()
    numbers, number = report.action.numbers(source.read(addr, length)), source.signal()
    ended, state = (f"signal {number}", "ended") if number else ("running", "running")
    name = words.record or f"{os.path.basename(words.of)}.record"
    program = words.program or program_of(os.path.splitext(report.path)[0])
    if words.program and not os.path.isfile(words.program):
        raise Refusal(f"{words.program}: No such file or directory")
    with as_file(name) as path:
        seen = {"processes": 1, "threads": source.threads(), "execs": 0}
        write_record(path, run, run.program_hash, record_rows(report, run, numbers, ended), state, seen)
        record = Record(path)
    shown = sys.stderr if name == STANDARD else sys.stdout
    if program and os.path.isfile(program) and not words.quiet:
        for line in summary(Coverage(program, record)):
            print(line, file=shown)
        if number and not report.action.is_ring:
            print(f"it was ended by {signal_name(number)}", file=shown)
    if name != STANDARD:
        print(f"wrote {name}")
    return 0
