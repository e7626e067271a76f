"""Each kept patched file in PROGRAM.vak is judged by its report (`e9tool check`): whether it does what the original
does, except for what the report says, whoever made it. `e9tool check` compares entry points, and so rejects each file
of the loader form. Such a file is written again from the original (`e9tool load`, or for threads `e9tool threads` with
`form:loader`), and file and report must have the same bytes."""
import argparse
import os
import subprocess
import sys
import tempfile

from vaknuhol.arguments import Refusal
from vaknuhol.levels import Level, add_file
from vaknuhol.messages import painted, progress
from vaknuhol.program.kernel import entry_of
from vaknuhol.program.program_file import read_bytes
from vaknuhol.recording.actions import Action, ActionError, action_of
from vaknuhol.recording.kept_patches import all_of, folder_of, kept_base, kept_fact
from vaknuhol.recording.patch_files import RunFiles
from vaknuhol.recording.patching import find_tool, threads_action
from vaknuhol.recording.settling import settled_again

NAMES = {"check": "judge the patched files of a program"}
STATUS = "exit status: 0 if each is sound, else 1; 2 if something is refused"


def add_words(level: Level, name: str) -> None:
    add_file(level, "program", metavar="PROGRAM", help="the original")
    add_file(level, "--into", metavar="FOLDER",
             help="the folder that cover, count or ring was given, in place of PROGRAM.vak")


def check(program: str, files: RunFiles) -> tuple[str, bool]:
    """Whether a patched file is sound, in a line."""
    done = subprocess.run([find_tool(), "check", program, files.patched, files.starts, files.report],
                          capture_output=True,
                          text=True, errors="replace")
    is_sound = done.returncode == 0 and done.stdout == "check yes\n"
    return (done.stdout or done.stderr).strip() or str(done.returncode), is_sound


def kept_action(stem: str) -> Action | None:
    """The action of a kept patched file, or nothing where none stands beside it."""
    try:
        return action_of(str(kept_fact(stem, "made of", "action")))
    except ActionError:
        return None


def check_again(program: str, files: RunFiles) -> tuple[str, bool]:
    """Whether a file of the loader form and its report are what is written for the original, in a line."""
    action, reserved = kept_action(files.stem), kept_fact(files.stem, "reserved", files.stem.rpartition(".")[2])
    if action is None or reserved is None:
        raise Refusal(f"{files.patched} (loader form): what it was made of doesn't stand beside it: patch again")
    with tempfile.TemporaryDirectory(prefix="again.", dir=os.path.dirname(files.stem)) as folder:
        again = RunFiles(f"{folder}/again")
        words = ["load", program, files.starts, files.sites, action.name, again.patched, again.report]
        if kept_fact(files.stem, "made of", "threads"):
            words = ["threads", program, files.starts, files.sites, again.patched, "form:loader",
                     *threads_action(action), f"report:{again.report}"]
        done = subprocess.run([find_tool(), *words, *reserved], capture_output=True, text=True, errors="replace")
        if done.returncode not in (0, 1):
            return f"not written again: {(done.stdout or done.stderr).strip() or done.returncode}", False
        same = all(read_bytes(getattr(files, ending)) == read_bytes(getattr(again, ending))
                   for ending in ("patched", "report"))
    return f"loader form, written again with {'the same' if same else 'other'} bytes", same


def do(words: argparse.Namespace) -> int:
    stems = all_of(words.program, words.into or folder_of(words.program))
    if not stems:
        raise Refusal(f"{words.program} has no patched file here: vaknuhol cover, count and ring make one")
    sound = True
    for stem in stems:
        files = RunFiles(stem)
        progress(f"checking {files.patched}")
        program = settled_again(words.program, kept_base(stem))
        has_stub = entry_of(files.patched) != entry_of(program)
        text, is_sound = (check_again if has_stub else check)(program, files)
        progress("")
        print(f"{os.path.relpath(files.patched)}: {painted(text, 'green' if is_sound else 'red', sys.stdout)}")
        sound = sound and is_sound
    return 0 if sound else 1
