#!/usr/bin/env python3
"""Lines, functions and branches beside gcov's, of the programs of bench/lines and of others' from Debian's source packages:

    lines_of_programs.py [--sources FOLDER] [--into FOLDER] [--level=-O0] [NAME...]

FOLDER has what `apt-get source` unpacked there. Each program is built, run and compared by lines_and_gcov.py, and the sums of
all are in the last row. Without --sources only those of bench/lines are compared. Addresses aren't randomized (`setarch -R`), since
Lua hashes some.
"""
import argparse
import glob
import os
import subprocess
import sys
import tempfile
from typing import NamedTuple

HERE = os.path.dirname(os.path.realpath(__file__))
LEVELS = ("-O0", "-O1")
HEAD = ("| Program | both | equal | hit alike | only gcov | only ours | functions | branches | blocks | left | unknown |\n"
        + "|---" * 11 + "|")


class Program(NamedTuple):
    """Sources are patterns below the package's folder, those with - are left out; {top} is that folder, {lines} bench/lines."""
    sources: str
    flags: str = ""
    words: str = ""
    given: str = ""


# By names of packages and the beginning of the folder that the package unpacks to.
OTHERS = {
    "lua5.4": Program("src/*.c -src/luac.c", "-I{lines}/debian -Dluai_makeseed(L)=1u -DSTRCACHE_N=1 -DSTRCACHE_M=2 -lm", "{lines}/program.lua"),
    "mujs": Program("main.c one.c", "-lm", "{lines}/program.js"),
    "zlib": Program("*.c test/minigzip.c", "-I{top} -DHAVE_UNISTD_H", "", "{top}/FAQ"),
    "lz4": Program("lib/*.c programs/*.c", "-I{top}/lib", "-9 -c {top}/NEWS"),
    "brotli": Program("c/common/*.c c/enc/*.c c/dec/*.c c/tools/brotli.c", "-I{top}/c/include -lm", "-q 9 -c {top}/README.md"),
    "bzip2": Program("blocksort.c bzip2.c bzlib.c compress.c crctable.c decompress.c huffman.c randtable.c", "", "-c", "{top}/README"),
    "md4c": Program("src/*.c md2html/*.c", "-I{top}/src -DMD_VERSION_MAJOR=0 -DMD_VERSION_MINOR=4 -DMD_VERSION_RELEASE=8",
                    "--github", "{top}/README.md"),
    "cjson": Program("cJSON.c test.c", "-lm"),
    "libyaml": Program("src/*.c tests/example-reformatter.c", "-I{top}/include -DYAML_VERSION_STRING=\"0.2.5\" -DYAML_VERSION_MAJOR=0 "
                       "-DYAML_VERSION_MINOR=2 -DYAML_VERSION_PATCH=5", "", "{lines}/input.yaml"),
    "zopfli": Program("src/zopfli/*.c", "-lm", "-c --i1 {top}/README"),
    "lzip": Program("*.cc", "-DPROGVERSION=\"1.23\"", "-9", "{top}/README"),
    "minisat2": Program("minisat/core/*.cc minisat/utils/*.cc", "-I{top} -D__STDC_LIMIT_MACROS -D__STDC_FORMAT_MACROS -fpermissive -lz",
                        "-verb=2 {lines}/holes.cnf"),
}


def files_of(top: str, patterns: str) -> list[str]:
    words = patterns.split()
    left_out = {it for word in words if word[0] == "-" for it in glob.glob(os.path.join(top, word[1:]))}
    return [it for word in words if word[0] != "-" for it in sorted(glob.glob(os.path.join(top, word))) if it not in left_out]


def compare(name: str, sources: list[str], program: Program, top: str, level: str, into: str) -> str:
    """The row of a program, and its differences below."""
    where = {"top": top, "lines": f"{HERE}/lines"}
    words = ["setarch", "-R", sys.executable, f"{HERE}/lines_and_gcov.py", "--differences", "--folder", os.path.join(into, name + level)]
    words += ["--compiler", "g++" if sources[0].endswith(".cc") else "gcc", f"--words={program.words.format(**where)}"]
    words += ["--input", program.given.format(**where)] if program.given else []
    words += [f"{name} {level}", *sources, "--", level, *(it.format(**where) for it in program.flags.split())]
    done = subprocess.run(words, stdout=subprocess.PIPE, stderr=subprocess.STDOUT, text=True, errors="replace", check=False)
    return done.stdout if done.returncode == 0 else f"{name} {level}: {done.stdout[-1500:]}"


def sums_of(rows: list[str]) -> str:
    """The columns added up; of `A/B` both."""
    columns = [[cell.strip() for cell in row.strip("|\n").split("|")][1:] for row in rows]
    added = ["/".join(str(sum(int(it.split("/")[part]) for it in cells)) for part in range(cells[0].count("/") + 1))
             for cells in zip(*columns)]
    return f"| sum | {' | '.join(added)} |"


def programs(words: argparse.Namespace) -> list[tuple[str, list[str], Program, str]]:
    found = []
    for path in sorted([*glob.glob(f"{HERE}/lines/*.c"), *glob.glob(f"{HERE}/lines/*.cc")]):
        found.append((os.path.basename(path), [path], Program("", "-lm"), ""))
    for name, program in OTHERS.items() if words.sources else ():
        for top in glob.glob(os.path.join(os.path.realpath(words.sources), f"{name}-*/")):
            found.append((name, files_of(top.rstrip("/"), program.sources), program, top.rstrip("/")))
    return [it for it in found if not words.names or it[0] in words.names]


def main() -> None:
    parser = argparse.ArgumentParser(description=__doc__, formatter_class=argparse.RawDescriptionHelpFormatter)
    parser.add_argument("--sources")
    parser.add_argument("--into")
    parser.add_argument("--level", action="append", dest="levels")
    parser.add_argument("names", nargs="*")
    words = parser.parse_args()
    with tempfile.TemporaryDirectory() as folder:
        for level in words.levels or LEVELS:
            print(HEAD)
            rows = []
            for it in programs(words):
                told = compare(*it, level, words.into or folder)
                print(told, end="", flush=True)
                rows += [line for line in told.splitlines() if line.startswith("|")]
            print(sums_of(rows))


if __name__ == "__main__":
    main()
