#!/usr/bin/env python3
"""Lines and functions of one program as `vaknuhol report --json` tells them, against gcov's of a second build of the same source.

    lines_and_gcov.py [--words WORDS] [--input FILE] [--compiler g++] [--folder FOLDER] [--differences] NAME SOURCE... [-- FLAG...]

Prints a row: the lines that both count, how many of these counts are equal, of how many both say that they were executed or not,
how many lines only one of both has; the functions that both count, and how many are equal; blocks, how many were left, and how many
of these stay unknown. $E9TOOL names the program that patches. What is built and recorded is kept in FOLDER, and used again
where it stands there.
"""
import argparse
import contextlib
import glob
import json
import os
import shlex
import subprocess
import sys
import tempfile
from collections.abc import Iterator
from typing import Any

TOP = os.path.dirname(os.path.dirname(os.path.realpath(__file__)))

Lines = dict[tuple[str, int], int]
Calls = dict[tuple[str, str], int]
Ways = dict[tuple[str, int], list[int]]


def call(words: list[str]) -> str:
    done = subprocess.run(words, capture_output=True, text=True, errors="replace", check=False)
    if done.returncode:
        sys.exit(f"{shlex.join(words)}: {done.returncode}: {done.stderr[-800:]}")
    return done.stdout


def gcov(folder: str) -> tuple[Lines, Calls, Ways]:
    """gcov's lines, functions and branches; lines of several units are added up."""
    lines: Lines = {}
    functions: Calls = {}
    branches: Ways = {}
    decoder, text, at = json.JSONDecoder(), call(["gcov", "-b", "--json-format", "--stdout", *glob.glob(f"{folder}/*.gcda")]), 0
    while at < len(text):
        if text[at].isspace():
            at += 1
            continue
        told, at = decoder.raw_decode(text, at)
        for file in told["files"]:
            name = os.path.realpath(os.path.join(told["current_working_directory"], file["file"]))
            for it in file["lines"]:
                key = name, it["line_number"]
                lines[key] = lines.get(key, 0) + it["count"]
                ways = [way["count"] for way in it["branches"] if not way["throw"]]
                branches.setdefault(key, []).extend(ways)
            for it in file["functions"]:
                key = it["name"], name
                functions[key] = functions.get(key, 0) + it["execution_count"]
    return lines, functions, branches


def build_and_run(folder: str, words: argparse.Namespace, flags: list[str]) -> None:
    """Leaves in the folder the program, a record of its run, and gcov's files of another build in `counted`."""
    building = [words.compiler, "-g", "-static", "-no-pie", *map(os.path.realpath, words.sources)]
    call([*building, "-o", f"{folder}/program", *flags])
    os.mkdir(f"{folder}/counted")
    call([*building, "--coverage", "-o", f"{folder}/counted/program", *flags])
    own_words = shlex.split(words.words)
    with open(words.input or os.devnull, "rb") as given:
        subprocess.run([f"{folder}/program", *own_words], executable=f"{folder}/counted/program", stdin=given, stdout=subprocess.DEVNULL,
                       check=False)
        given.seek(0)
        command = [f"{TOP}/bin/vaknuhol", "count", "--own", "--blocks", "--into", folder, "--quiet", f"{folder}/program"]
        subprocess.run([*command, *(["--", *own_words] if own_words else [])], stdin=given, stdout=subprocess.DEVNULL, check=False)


def ours(folder: str) -> tuple[Lines, Calls, Ways, list[dict[str, Any]]]:
    call([f"{TOP}/bin/vaknuhol", "report", f"{folder}/program", f"{folder}/last.record", "--json", f"{folder}/told.json"])
    with open(f"{folder}/told.json", encoding="utf-8") as file:
        told = json.load(file)
    lines: Lines = {}
    functions: Calls = {}
    branches: Ways = {}
    for it in told["files"]:
        name = os.path.realpath(it["file"])
        for line in it["lines"]:
            if not line["gcovr/noncode"]:
                lines[name, line["line_number"]] = line["count"]
                branches[name, line["line_number"]] = [way["count"] for way in line["branches"]]
        for function in it["functions"]:
            key = function.get("symbol", function["name"]), name
            functions[key] = functions.get(key, 0) + function["execution_count"]
    return lines, functions, branches, told["blocks"]


@contextlib.contextmanager
def folder_of(words: argparse.Namespace) -> Iterator[str]:
    """The folder for what is built: the one that is kept, or one that goes."""
    if words.folder:
        os.makedirs(words.folder, exist_ok=True)
        yield os.path.realpath(words.folder)
        return
    with tempfile.TemporaryDirectory() as folder:
        yield folder


def equal(left: dict[Any, int], right: dict[Any, int], both: set[Any]) -> int:
    return sum(left[it] == right[it] for it in both)


def main() -> None:
    parser = argparse.ArgumentParser(description=__doc__, formatter_class=argparse.RawDescriptionHelpFormatter)
    parser.add_argument("--words", default="")
    parser.add_argument("--input")
    parser.add_argument("--compiler", default="gcc")
    parser.add_argument("--folder")
    parser.add_argument("--differences", action="store_true")
    parser.add_argument("name")
    parser.add_argument("sources", nargs="+")
    at = sys.argv.index("--") if "--" in sys.argv else len(sys.argv)
    words, flags = parser.parse_args(sys.argv[1:at]), sys.argv[at + 1:]
    with folder_of(words) as folder:
        if not os.path.exists(f"{folder}/last.record"):
            build_and_run(folder, words, flags)
        lines, functions, branches = gcov(f"{folder}/counted")
        mine, my_functions, my_branches, blocks = ours(folder)
    files = {name for name, _ in lines if not name.startswith("/usr/")}
    lines = {it: count for it, count in lines.items() if it[0] in files}
    mine = {it: count for it, count in mine.items() if it[0] in files}
    both, called = lines.keys() & mine.keys(), functions.keys() & my_functions.keys()
    split = {it for it in both if branches[it] and len(branches[it]) == len(my_branches[it])}
    same = sum(sorted(branches[it]) == sorted(my_branches[it]) for it in split)
    hit = sum((lines[it] > 0) == (mine[it] > 0) for it in both)
    left = sum(it["left"] is not None or it["count"] is None or it["solved"] is not None for it in blocks)
    print(f"| {words.name} | {len(both)} | {equal(lines, mine, both)} | {hit} | {len(lines) - len(both)} | {len(mine) - len(both)} "
          f"| {equal(functions, my_functions, called)}/{len(called)} | {same}/{len(split)} "
          f"| {len(blocks)} | {left} | {sum(it['count'] is None for it in blocks)} |", flush=True)
    if words.differences:
        for it in sorted(both):
            if lines[it] != mine[it]:
                print(f"    {os.path.basename(it[0])}:{it[1]} gcov {lines[it]}, ours {mine[it]}")
        for title, those in (("only gcov", sorted(lines.keys() - mine.keys())), ("only ours", sorted(mine.keys() - lines.keys()))):
            counts = lines if title == "only gcov" else mine
            print(f"    {title}:", " ".join(f"{os.path.basename(name)}:{line}={counts[name, line]}" for name, line in those[:80]))
        for called_one in sorted(called):
            if functions[called_one] != my_functions[called_one]:
                print(f"    {called_one[0]} gcov {functions[called_one]}, ours {my_functions[called_one]}")


if __name__ == "__main__":
    main()
