"""Copies of the repository, in which tests/mutants.py lets pytest run, and how what a test leaves running is ended."""
import ctypes
import glob
import os
import shutil
import signal
import subprocess
import sys
import time

TOP = os.path.dirname(os.path.dirname(os.path.realpath(__file__)))
PACKAGE, TESTS = "scripts/vaknuhol", "scripts/tests"
COPIED, LINKED = ("scripts", "native", "bin"), ("crates", "docs", "debian", "bench", "examples", "tests")
SET_CHILD_SUBREAPER = 36  # linux/prctl.h


def copy_of(work: str, job: int) -> str:
    """The folder of a job, with a copy of the repository in `tree`."""
    folder = os.path.join(work, str(job))
    shutil.rmtree(f"{folder}/tree", ignore_errors=True)
    os.makedirs(f"{folder}/tree")
    os.makedirs(f"{folder}/built", exist_ok=True)
    for name in COPIED:
        shutil.copytree(f"{TOP}/{name}", f"{folder}/tree/{name}", ignore=shutil.ignore_patterns("__pycache__"))
    for name in LINKED:
        os.symlink(f"{TOP}/{name}", f"{folder}/tree/{name}")
    for name in ("README.md", "CHANGELOG.md", "pyproject.toml"):
        shutil.copy2(f"{TOP}/{name}", f"{folder}/tree/{name}")
    return folder


def started() -> list[int]:
    """All processes below this one."""
    above = {}
    for path in glob.glob("/proc/[0-9]*/stat"):
        try:
            with open(path, encoding="utf-8", errors="replace") as file:
                words = file.read().rpartition(")")[2].split()
            above[int(path.split("/")[2])] = int(words[1])
        except OSError:
            continue
    found, work = [], [os.getpid()]
    while work:
        parent = work.pop()
        work += (below := [pid for pid, of in above.items() if of == parent])
        found += below
    return found


def end_all() -> None:
    """Ends what a test left running: a mutant may make one that goes on for ever."""
    while pids := started():
        for pid in pids:
            try:
                os.kill(pid, signal.SIGKILL)
            except ProcessLookupError:
                pass
        while True:
            try:
                if os.waitpid(-1, os.WNOHANG)[0] == 0:
                    break
            except ChildProcessError:
                return
        time.sleep(0.05)


def pytest_in(folder: str, words: list[str], limit: float | None, **given: str) -> tuple[int | None, str]:
    """The status of pytest in a copy, or none where its time was up, and what it printed."""
    environment = {**os.environ, "PYTHONPATH": f"{TOP}/tests", "PYTHONDONTWRITEBYTECODE": "1",
                   "MUTANTS_FOLDER": folder, **given}
    command = [sys.executable, "-m", "pytest", "-q", "-p", "mutation_plugin", "-p", "no:cacheprovider",
               f"--basetemp={folder}/tmp", *words]
    with open(f"{folder}/printed", "w+", encoding="utf-8", errors="replace") as printed:
        it = subprocess.Popen(command, cwd=f"{folder}/tree", env=environment, stdin=subprocess.DEVNULL, stdout=printed,
                              stderr=subprocess.STDOUT)
        try:
            status = it.wait(limit)
        except subprocess.TimeoutExpired:
            status = None
        end_all()
        printed.seek(0)
        return status, printed.read()


def own_children() -> None:
    """What a test leaves without a parent becomes a child of this process."""
    ctypes.CDLL(None).prctl(SET_CHILD_SUBREAPER, 1, 0, 0, 0)
