"""The original is worked out from the patched file and its report alone (`e9tool unpatch`), so the program itself is
not needed. Without --report, the report is looked for beside PATCHED."""
import argparse
import os
import subprocess
import tempfile

from vaknuhol.arguments import Refusal
from vaknuhol.levels import Level, add_file, add_output
from vaknuhol.outputs import write_outputs
from vaknuhol.program.program_file import read_bytes
from vaknuhol.recording.kept_patches import kept_base, kept_fact
from vaknuhol.recording.patch_files import RunFiles
from vaknuhol.recording.patching import find_tool
from vaknuhol.recording.process_memory import PATCHED
from vaknuhol.recording.settling import unsettled

NAMES = {"unpatch": "give the original of a patched file back, byte for byte"}


def add_words(level: Level, name: str) -> None:
    add_file(level, "patched", metavar="PATCHED", help="a patched file, as --patch-only prints its name")
    add_output(level, "original", metavar="NEW", help="the file to write; - is standard output")
    add_file(level, "--report", metavar="REPORT", help="the report of the patched file, if it isn't beside it")


def report_of(patched: str) -> str:
    """The report that stands beside a patched file."""
    files = RunFiles(patched.removesuffix(PATCHED))
    if patched.endswith(PATCHED) and os.path.isfile(files.report):
        return files.report
    raise Refusal(f"no report stands beside {patched}: name it by --report")


def restored(patched: str, report: str) -> bytes:
    """The original's bytes: of a static PIE its own, not those of its settled file."""
    with tempfile.TemporaryDirectory(prefix="vaknuhol.") as folder:
        path = os.path.join(folder, "original")
        done = subprocess.run([find_tool(), "unpatch", patched, report, path], capture_output=True, text=True,
                              errors="replace",
                              check=False)
        if done.returncode:
            raise Refusal(f"e9tool answers: {(done.stdout or done.stderr).strip() or done.returncode}")
        data = read_bytes(path)
    is_own = kept_fact(patched.removesuffix(PATCHED), "made of") and kept_base(patched.removesuffix(PATCHED)) is None
    return data if is_own else unsettled(data)


def do(words: argparse.Namespace) -> int:
    write_outputs([(words.original, restored(words.patched, words.report or report_of(words.patched)))],
                  is_program=True)
    return 0
