"""Which test reaches which line of scripts/vaknuhol, by coverage.py, and how long each takes."""
import concurrent.futures
import fnmatch
import glob
import hashlib
import json
import os
import shutil
import sys

from mutation_copies import PACKAGE, TESTS, TOP, copy_of, own_children, pytest_in
from mutation_plugin import ALL, HOOK, LIBRARY
from mutation_rules import Mutant

# What builds packages, or tries the proved program and the processor alone
WITHOUT = ("test_package.py", "test_package_bytes.py", "test_hardware.py", "test_real_files.py", "test_real_names.py",
           "test_failing_calls.py", "test_examples.py", "test_needed_tools.py")


def note(folder: str, modules: list[str], tool: str) -> dict[str, dict]:
    """What some modules of tests reach: lines of each file by tests, and the seconds of each test that passes."""
    own_children()
    shutil.rmtree(f"{folder}/reached", ignore_errors=True)
    os.makedirs(f"{folder}/reached")
    os.chmod(f"{folder}/reached", 0o777)
    head = f"{folder}/tree/{PACKAGE}/__init__.py"
    with open(head, encoding="utf-8") as file:
        before = file.read()
    with open(head, "a", encoding="utf-8") as file:
        file.write(HOOK.format(package=os.path.dirname(head), folder=folder, library=LIBRARY))
    words = [f"--e9tool={tool}", "-rA", *(f"{TESTS}/{module}" for module in modules)]
    printed = pytest_in(folder, words, None, MUTANTS_NOTE="1")[1]
    with open(head, "w", encoding="utf-8") as file:
        file.write(before)
    with open(f"{folder}/seconds", encoding="utf-8") as file:
        seconds = json.load(file)
    passed = {line.removeprefix("PASSED ") for line in printed.splitlines() if line.startswith("PASSED ")}
    if not passed:
        raise SystemExit(f"no test passes in {folder}/tree ({folder}/printed says why)")
    reached: dict[str, dict[int, set[str]]] = {}
    for path in glob.glob(f"{folder}/reached/*"):
        with open(path, encoding="utf-8") as file:
            for context, name, lines in json.load(file):
                of_file = reached.setdefault(name.partition(f"{PACKAGE}/")[2], {})
                for line in lines:
                    of_file.setdefault(line, set()).update(tests_of(context, seconds))
    return {"seconds": {name: took for name, took in seconds.items() if name in passed},
            "failed": sorted(seconds.keys() - passed),
            "reached": {name: {line: sorted(tests) for line, tests in lines.items()}
                        for name, lines in reached.items()}}


def tests_of(context: str, seconds: dict[str, float]) -> list[str]:
    module, _, test = context.partition("::")
    return [name for name in seconds if name.startswith(f"{module}::")] if test == ALL else [context]


def made_of(chosen: list[str]) -> str:
    """A hash of what decides which test reaches what."""
    paths = [path for top in (PACKAGE, TESTS, "native") for path in glob.glob(f"{TOP}/{top}/**/*.*", recursive=True)]
    digest = hashlib.sha256(" ".join(chosen).encode())
    for path in sorted(path for path in paths if path.endswith((".py", ".c", ".cc", ".h", ".s"))):
        with open(path, "rb") as file:
            digest.update(file.read())
    return digest.hexdigest()


def test_modules(wanted: list[str]) -> list[str]:
    """The modules of tests that are tried, in an order in which long ones aren't beside each other."""
    names = (os.path.basename(path) for path in glob.glob(f"{TOP}/{TESTS}/test_*.py"))
    chosen = (it for it in names if it not in WITHOUT and any(fnmatch.fnmatch(it, f"{like}.py") for like in wanted))
    return sorted(chosen, key=lambda name: hashlib.sha256(name.encode()).digest())


def known_reach(work: str, jobs: int, tool: str, modules: list[str]) -> dict[str, dict]:
    """What the tests reach, as it is known or is found out now."""
    path, key = f"{work}/reached.json", made_of(modules)
    if os.path.isfile(path):
        with open(path, encoding="utf-8") as file:
            known = json.load(file)
        if known["made of"] == key:
            return known
    shares = [modules[job::jobs] for job in range(jobs)]
    whole: dict[str, dict] = {"seconds": {}, "reached": {}}
    with concurrent.futures.ProcessPoolExecutor(jobs) as pool:
        folders = [copy_of(work, job) for job in range(jobs)]
        for found in pool.map(note, folders, shares, [tool] * jobs):
            whole["seconds"].update(found["seconds"])
            for name in found["failed"]:
                print(f"not used, as it doesn't pass: {name}", file=sys.stderr)
            for name, lines in found["reached"].items():
                of_file = whole["reached"].setdefault(name, {})
                for line, tests in lines.items():
                    of_file[str(line)] = sorted({*of_file.get(str(line), []), *tests})
    with open(path, "w", encoding="utf-8") as file:
        json.dump({"made of": key, **whole}, file)
    return {"made of": key, **whole}


def chosen_tests(known: dict[str, dict], module: str, mutant: Mutant, budget: float) -> list[str]:
    """The tests that reach a line, the quickest first, as many as a time allows; of a line that runs as the module is
    read, those that reach any other line of it."""
    reached, seconds = known["reached"].get(module, {}), known["seconds"]
    is_outer = mutant.function == "module" or mutant.function[:1].isupper() and "." not in mutant.function
    lines = reached.values() if is_outer else [reached.get(str(line), []) for line in (mutant.line, mutant.statement)]
    names = sorted({name for tests in lines for name in tests if name in seconds}, key=lambda name: seconds[name])
    found, total = [], 0.0
    for name in names:
        total += seconds[name]
        if found and total > budget:
            break
        found.append(name)
    return found
