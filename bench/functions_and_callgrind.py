#!/usr/bin/env python3
"""How often functions were called as `vaknuhol report --json` tells it, beside callgrind's count of calls.

    functions_and_callgrind.py [--words WORDS] [--input FILE] FOLDER...

Each FOLDER was left by lines_and_gcov.py --folder: the program without optimization, and its record. Callgrind counts calls by their
call sites, so that of main, and of functions that the C library calls by a jump, may be one less: these are told.
"""
import argparse
import collections
import json
import os
import re
import shlex
import subprocess
import sys
import tempfile

TOP = os.path.dirname(os.path.dirname(os.path.realpath(__file__)))
NAMED = re.compile(r"c?fn=\((\d+)\)(?: (.+))?")


def calls_of(text: str) -> collections.Counter[str]:
    """The calls of each function in callgrind's file, whose names stand where they first occur."""
    names: dict[str, str] = {}
    calls: collections.Counter[str] = collections.Counter()
    called = ""
    for line in text.splitlines():
        named = NAMED.fullmatch(line)
        if named:
            names.setdefault(named[1], named[2])
            called = names[named[1]]
        elif line.startswith("calls="):
            calls[re.sub(r"'\d+$", "", called)] += int(line[6:].split()[0])
    return calls


def of_callgrind(folder: str, words: argparse.Namespace) -> collections.Counter[str]:
    with tempfile.TemporaryDirectory() as other, open(words.input or os.devnull, "rb") as given:
        command = ["valgrind", "--tool=callgrind", "--demangle=no", f"--callgrind-out-file={other}/out", f"{folder}/program"]
        subprocess.run([*command, *shlex.split(words.words)], stdin=given, capture_output=True, check=False)
        with open(f"{other}/out", encoding="utf-8", errors="replace") as file:
            return calls_of(file.read())


def of_ours(folder: str) -> dict[str, int]:
    done = subprocess.run([f"{TOP}/bin/vaknuhol", "report", f"{folder}/program", f"{folder}/last.record", "--json", "-"],
                          capture_output=True, text=True, check=False)
    if done.returncode:
        sys.exit(done.stderr)
    return {it["symbol"]: it["execution_count"] for file in json.loads(done.stdout)["files"] for it in file["functions"]}


def by_source(counts: dict[str, int]) -> collections.Counter[str]:
    """The counts by names as the source has them, without parameters: callgrind has one of a constructor's symbols."""
    told = subprocess.run(["c++filt", "-p"], input="\n".join(counts), capture_output=True, text=True, check=True).stdout.splitlines()
    found: collections.Counter[str] = collections.Counter()
    for name, count in zip(told, counts.values()):
        found[name] += count
    return found


def main() -> None:
    parser = argparse.ArgumentParser(description=__doc__, formatter_class=argparse.RawDescriptionHelpFormatter)
    parser.add_argument("--words", default="")
    parser.add_argument("--input")
    parser.add_argument("folders", nargs="+")
    words = parser.parse_args()
    for folder in words.folders:
        theirs, ours = by_source(of_callgrind(folder, words)), by_source(of_ours(folder))
        differ = {it: (theirs[it], count) for it, count in ours.items() if theirs[it] != count}
        print(f"{os.path.basename(folder)}: {len(ours) - len(differ)} of {len(ours)} functions equal", flush=True)
        for name, (their, our) in sorted(differ.items()):
            print(f"    {name}: callgrind {their}, ours {our}")


if __name__ == "__main__":
    main()
