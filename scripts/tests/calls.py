"""How the tests call the scripts, and other programs."""
import os
import re
import subprocess
import sys
from typing import Any

from vaknuhol.recording.record_file import Record

SCRIPTS = os.path.dirname(os.path.dirname(os.path.realpath(__file__)))
SOURCES = f"{SCRIPTS}/tests"
TOP = os.path.dirname(SCRIPTS)
STATIC = "-O1 -g -fno-inline -static -no-pie".split()


def run(*words: str, status: tuple[int, ...] = (0,), **how: Any) -> str:
    """What a command prints, which has to end with one of these statuses."""
    done = subprocess.run(words, stdout=subprocess.PIPE, stderr=subprocess.STDOUT, text=True, **how)
    assert done.returncode in status, f"{' '.join(words)} ended with {done.returncode}: {done.stdout}"
    return str(done.stdout)


def match(pattern: str, text: str) -> re.Match[str]:
    """What a pattern finds in a text, where it has to find something."""
    found = re.search(pattern, text)
    assert found, f"{pattern!r} finds nothing in {text}"
    return found


def words_of(name, *words, code=""):
    """The command line of a script; with something of it changed first, in Python, where there is code."""
    if not code:
        return [sys.executable, f"{SCRIPTS}/{name}.py", *words]
    start = f"import runpy, sys\nsys.path.insert(0, {SCRIPTS!r})\n{code}\n"
    return [sys.executable, "-c", f"{start}runpy.run_path('{SCRIPTS}/{name}.py', run_name='__main__')", *words]


def script(name, *words, status=(0,), code=""):
    return run(*words_of(name, *words, code=code), status=status)


def of_slots(slots):
    """Code by which threads share rings of so many slots, as e9tool patches them, too."""
    return f"import vaknuhol.recording.actions\nvaknuhol.recording.actions.SHARED_SLOTS = {slots}"


# Python after which programs that are begun may not suspend filters on system calls (CAP_SYS_ADMIN), also root's.
HELD_BY_FILTERS = "import ctypes; ctypes.CDLL(None).prctl(24, 21)  # PR_CAPBSET_DROP"


def suspends_filters():
    """Whether a program that is begun may do so: it has CAP_SYS_ADMIN, and no filter itself."""
    with open("/proc/self/status", encoding="ascii") as file:
        state = dict(line.split(":\t", 1) for line in file)
    return bool(int(state["CapEff"], 16) >> 21 & 1) and int(state["Seccomp"]) == 0


def path_of(program, action, ending):
    return f"{program}.vak/{program}.{action}.{ending}"


def patch(program, *words, status=(0,), code=""):
    return script("patch_program", program, *words, status=status, code=code)


def record(program, action, *words, status=(0,), to="record", code=""):
    """What the patched program prints; its record stands in a file afterwards."""
    files = [path_of(program, action, "report"), to, path_of(program, action, "patched")]
    return script("run_and_record", *files, *words, status=status, code=code)


def rows_of(path):
    """The rows of a record: first address, end, site, and count (None where it was left)."""
    return Record(path).rows


def leave(addresses, path, to):
    """Writes a copy of a record in which the blocks that begin at these addresses were left."""
    with open(path, encoding="ascii") as file:
        lines = file.read().splitlines()
    with open(to, "w", encoding="ascii") as file:
        for line in lines:
            is_left = re.match("[0-9a-f]{8} ", line) and int(line[:8], 16) in addresses
            file.write(f"{line.rpartition(' ')[0]} -\n" if is_left else f"{line}\n")
