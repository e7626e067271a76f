#!/usr/bin/env python3
"""Fuzzes what the C programs read, by libFuzzer of clang, with AddressSanitizer and UndefinedBehaviorSanitizer:
fuzz.py [SECONDS [TARGET...]]. Without SECONDS, or with 0, each seed of tests/fuzz/seeds is tried once. What is found
goes to native/out/fuzz/TARGET, where `log` is; the status is 1 where an input shows a fault."""
import glob
import os
import subprocess
import sys
from typing import NamedTuple

TOP = os.path.dirname(os.path.dirname(os.path.realpath(__file__)))
HERE, OUT = f"{TOP}/tests/fuzz", f"{TOP}/native/out/fuzz"
sys.path.insert(0, f"{TOP}/scripts")
from vaknuhol.native import NEEDS  # noqa: E402  # pylint: disable=wrong-import-position

FLAGS = ("-std=gnu11", "-g", "-O1", "-fsanitize=address,undefined", "-fno-sanitize-recover=undefined",
         "-Wno-unused-function", "-Wno-unknown-attributes")
RENAMED = ("malloc", "calloc", "realloc", "reallocarray", "free", "asprintf", "mmap", "verrx", "errx", "err")
LIMITS = ("-timeout=300", "-rss_limit_mb=4096", "-max_len=16384", "-print_final_stats=1")


class Target(NamedTuple):
    """A source of tests/fuzz, the program whose sources it is linked with, which of these it has in itself or does
    without, and definitions."""
    source: str
    program: str
    without: tuple[str, ...]
    defined: tuple[str, ...] = ()


RUN = ("run_file", "vaknuhol-run", ("main", "standin", "letgo", "follow", "outside", "record"))
TARGETS = {
    "lister": Target("lister", "vaknuhol-list", ("main", "jump_tables")),
    "lines": Target("lines", "vaknuhol-lines", ("main", "instances", "names", "tables", "rows")),
    "run_file": Target(*RUN),
    "record": Target(*RUN, ("-DRECORD",)),
    "list_reader": Target("list_reader", "vaknuhol-step", ("main", "calls", "reads")),
}


def compiled(folder: str, target: Target, path: str) -> str:
    """The object of a source, with other names for what takes memory or ends the program (harness.c)."""
    to = f"{folder}/{os.path.basename(path)[:-2]}.o"
    renamed = [f"-D{it}=fuzz_{it}" for it in RENAMED]
    folders = [f"-I{it}" for it in (f"{TOP}/native/{target.program}", f"{TOP}/native/lib", HERE)]
    subprocess.run(["clang", *FLAGS, "-fsanitize=fuzzer-no-link", *renamed, *target.defined, *folders, "-c", path,
                    "-o", to], check=True)
    return to


def built(name: str) -> str:
    """The path of a target, from the sources as they are."""
    target, folder = TARGETS[name], f"{OUT}/{name}"
    os.makedirs(f"{folder}/inputs", exist_ok=True)
    needs = NEEDS[target.program]
    sources = [path for path in sorted(glob.glob(f"{TOP}/native/{target.program}/*.c"))
               if os.path.basename(path)[:-2] not in target.without]
    sources += [f"{TOP}/native/lib/{source}.c" for source in needs.shared] + [f"{HERE}/{target.source}.c"]
    objects = [compiled(folder, target, path) for path in sources]
    linked = [word for word in needs.linked if word != "-static"]
    subprocess.run(["clang", *FLAGS, "-fsanitize=fuzzer", "-o", f"{folder}/target", *objects, f"{HERE}/harness.c",
                    *linked], check=True)
    return f"{folder}/target"


def is_clean(name: str, seconds: int) -> bool:
    """Whether a target shows no fault, on its seeds, or for so long."""
    target, folder, seeds = built(name), f"{OUT}/{name}", sorted(glob.glob(f"{HERE}/seeds/{name}/*"))
    words = [*LIMITS, f"-max_total_time={seconds}", f"{folder}/inputs", f"{HERE}/seeds/{name}"] if seconds else seeds
    env = {**os.environ, "ASAN_OPTIONS": "detect_leaks=0", "FUZZ_RUN_FILES": f"{HERE}/seeds/run_file/*"}
    with open(f"{folder}/log", "w+", encoding="utf-8", errors="replace") as log:
        done = subprocess.run([target, f"-artifact_prefix={folder}/", *words], stdout=log, stderr=log, env=env,
                              check=False)
        log.seek(0)
        told = [line.strip() for line in log
                if any(it in line for it in ("number_of_executed_units", "ERROR", "runtime error"))]
    print(f"{name}: {'; '.join(told) or f'{len(seeds)} seeds'}", flush=True)
    return done.returncode == 0


if __name__ == "__main__":
    ARGUMENTS = sys.argv[1:] or ["0"]
    RESULTS = [is_clean(name, int(ARGUMENTS[0])) for name in ARGUMENTS[1:] or TARGETS]
    sys.exit(0 if all(RESULTS) else 1)
