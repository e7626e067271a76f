"""How the tests call the command vaknuhol, and read what it prints."""
import os
import re
import subprocess
import sys

from tests.calls import SCRIPTS, TOP
from vaknuhol.recording.record_file import Record

COMMAND = f"{TOP}/bin/vaknuhol"
LAST = "tour.vak/last.record"
PROGRESS = re.compile(r"^vaknuhol: .+, [0-9]+ s\n", re.M)
STEP = "tour::Walk::step(long)"
PARTS = "import vaknuhol.recording.default_choice\nvaknuhol.recording.default_choice.MOST = 8"


def call(*words, status=0, text="", stdin=None, command=(sys.executable, COMMAND), has_progress=False):
    """What the command prints on standard output, and on standard error without progress, which shows how busy the
    machine is; its input is a text through a pipe, or a file."""
    given = {"stdin": stdin} if stdin else {"input": text}
    done = subprocess.run([*command, *words], **given, capture_output=True, text=True)
    assert (
        done.returncode == status
    ), f"vaknuhol {' '.join(words)} ended with {done.returncode}: {done.stdout}{done.stderr}"
    assert "Traceback" not in done.stderr, done.stderr
    return done.stdout, done.stderr if has_progress else PROGRESS.sub("", done.stderr)


def changed(code, *words, **how):
    """The command with something of it changed first, in Python."""
    start = f"import sys\nsys.path.insert(0, {SCRIPTS!r})\nsys.argv[0] = 'vaknuhol'\n{code}\n"
    start += "from vaknuhol.main import main\nmain()"
    return call(*words, command=(sys.executable, "-c", start), **how)


def count_of(shown, place):
    """The count of a place in a summary's list of the hottest."""
    found = re.search(rf"^ +([0-9]+)  {re.escape(place)}", shown, re.M)
    assert found, f"{place} is not in the summary:\n{shown}"
    return int(found.group(1))


def counts(path=LAST):
    """The counts of a record by blocks; None where one was left, as the shortest are."""
    return {row.first: row.count for row in Record(path).rows}


def known(path=LAST):
    return {first: count for first, count in counts(path).items() if count is not None}


def alike(some, others):
    """Whether blocks of which both know the count have the same, and nearly all are such."""
    both = some.keys() & others.keys()
    return all(some[it] == others[it] for it in both) and 10 * len(both) > 9 * max(len(some), len(others))


def patched_below(folder):
    """The patched files that stand below a folder."""
    return [name for _, _, names in os.walk(folder) for name in names if name.endswith(".patched")]
