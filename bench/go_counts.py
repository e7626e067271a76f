#!/usr/bin/env python3
"""go_counts.py E9TOOL [ARGUMENT..]: counts of Go's gofmt against counters that Go's own `cover` compiles in.

gofmt and the packages that it reads and prints by are built from Go's sources (1.19), after `go tool cover -mode=atomic` has put a counter
into each block; at the end gofmt writes them to $COVER_OUT. It is patched at all blocks for threads, and runs 20 times with all processors,
over the arguments (`-l -e` and the sources of `fmt` and `net`): it prints what the original prints, and each counter is the sum of the counts
of the blocks in which an instruction adds to it. File, report and original are judged as thread_counts.py does, also of the gofmt that Go
comes with."""
import argparse
import bisect
import collections
import os
import re
import shutil
import sys
import tempfile

from thread_counts import call, judge, row_at, vaknuhol
from vaknuhol.program.program_file import read_text
from vaknuhol.recording.record_file import Record

PACKAGES = {"scanner": "go/scanner", "parser": "go/parser", "printer": "go/printer", "typeparams": "go/internal/typeparams",
            "semaphore": "golang.org/x/sync/semaphore", "diff": "internal/diff"}
DUMP = '''package {0}
import ("fmt"; "io"; "sync/atomic")
func DumpCounters(w io.Writer) {{ {1} }}
'''
DUMPED = '''for i := range {0}.Count {{ fmt.Fprintf(w, "{1}.{0} %d %d\\n", i, atomic.LoadUint32(&{0}.Count[i])) }}; '''
DUMP_ALL = '''package main
import ("os"; "bufio"; {0})
func dumpAll() {{
	file, err := os.Create(os.Getenv("COVER_OUT"))
	if err != nil {{ panic(err) }}
	w := bufio.NewWriter(file)
	{1}; DumpCounters(w)
	w.Flush()
}}
'''
LEA = re.compile(r"^ +[0-9a-f]+:\tlea +0x[0-9a-f]+\(%rip\),%(\w+) +# ([0-9a-f]+) <")
ADD = re.compile(r"^ +([0-9a-f]+):\tlock xadd %(?:e\w+|r\d+d),(?:0x0)?\(%(\w+)\)")
WRITES = re.compile(r"^ +[0-9a-f]+:\t\S+ .*,%(\w+)$")
Places = dict[tuple[str, int], list[int]]


def write(path: str, text: str) -> None:
    with open(path, "w", encoding="utf-8") as file:
        file.write(text)


def counted(folder: str, name: str) -> None:
    """Puts a counter into each block of a package, and a function that writes them all."""
    dumps = []
    for number, path in enumerate(sorted(os.listdir(folder))):
        source = os.path.join(folder, path)
        text = call("go", "tool", "cover", "-mode=atomic", f"-var=Counters{number}", source)
        if f"Counters{number}.Count[" in text:
            write(source, text.replace("os.Exit(s.GetExitCode())", "code := s.GetExitCode(); dumpAll(); os.Exit(code)"))
            dumps.append(DUMPED.format(f"Counters{number}", "main" if name == "main" else f"counted/{name}"))
    write(os.path.join(folder, "dump.go"), DUMP.format(name, "".join(dumps)))


def build(to: str) -> None:
    """Builds gofmt with counters."""
    sources = os.path.join(call("go", "env", "GOROOT").strip(), "src")
    folders = {"main": ("cmd/gofmt", ".")} | {it: (place, it) for it, place in PACKAGES.items()}
    for name, (place, folder) in folders.items():
        os.makedirs(folder, exist_ok=True)
        vendored = os.path.join(sources, "cmd/vendor", place)
        origin = vendored if os.path.isdir(vendored) else os.path.join(sources, place)
        for path in os.listdir(origin):
            if path.endswith(".go") and not path.endswith("_test.go"):
                text = read_text(os.path.join(origin, path))
                for own, other in PACKAGES.items():
                    text = text.replace(f'\t"{other}"\n', f'\t"counted/{own}"\n')
                write(os.path.join(folder, path), text)
        counted(folder, name)
    write("all.go", DUMP_ALL.format("; ".join(f'"counted/{it}"' for it in PACKAGES), "; ".join(f"{it}.DumpCounters(w)" for it in PACKAGES)))
    write("go.mod", "module counted\ngo 1.19\n")
    call("go", "build", "-o", to, ".")


def adding(program: str, lengths: dict[str, int]) -> Places:
    """By each counter the instructions that add to it. Each counter's address is loaded right before."""
    arrays, found = {}, collections.defaultdict(list)
    for line in call("nm", program).splitlines():
        addr, _, name = line.rpartition(" ")
        if name in lengths:
            arrays[int(addr.split()[0], 16)] = name
    firsts, loaded = sorted(arrays), dict[str, int]()
    for line in call("objdump", "-d", "--no-show-raw-insn", program).splitlines():
        if lea := LEA.match(line):
            loaded[lea[1]] = int(lea[2], 16)
        elif (add := ADD.match(line)) and add[2] in loaded:
            first = firsts[bisect.bisect_right(firsts, loaded[add[2]]) - 1]
            number = (loaded[add[2]] - first) // 4
            if 0 <= number < lengths[arrays[first]]:
                found[arrays[first], number].append(int(add[1], 16))
        elif other := WRITES.match(line):
            loaded.pop(other[1], None)
    return found


def counters() -> dict[tuple[str, int], int]:
    rows = [line.split() for line in read_text("counters").splitlines()]
    return {(name, int(number)): int(count) for name, number, count in rows}


def compare(run: int, places: Places) -> tuple[int, int, int]:
    """How many counters of a run equal counts, how many of them aren't 0, and how many have a place that was left; all others end it."""
    rows, told = Record("record").rows, counters()
    firsts, equal, executed = [row.first for row in rows], 0, 0
    for counter, addresses in places.items():
        blocks = [row_at(rows, firsts, addr) for addr in addresses]
        found = [row.count for row in blocks if row and row.count is not None]
        if len(found) == len(addresses):
            if sum(found) != told[counter]:
                sys.exit(f"run {run}: counter {counter} is {told[counter]}, and {found} were counted")
            equal, executed = equal + 1, executed + (told[counter] > 0)
    return equal, executed, len(places) - equal


def left(name: str) -> str:
    rows = Record("record").rows
    unknown = collections.Counter(row.outcome for row in rows if row.count is None)
    return f"{name}: left {unknown.total()} of {len(rows)} ({100 * unknown.total() / len(rows):.2f} %): {dict(unknown)}"


def patched(name: str) -> str:
    """The stem of the files of a program that is patched at all blocks."""
    (path,) = vaknuhol("count", "--blocks", "--threads", "--patch-only", name).split()
    return path.removesuffix(".patched")


def main() -> None:
    parser = argparse.ArgumentParser(description=__doc__)
    parser.add_argument("tool")
    parser.add_argument("--runs", type=int, default=20)
    parser.add_argument("--changes", type=int, default=12, help="how many changes are planted")
    words, arguments = parser.parse_known_args()
    os.environ["E9TOOL"] = tool = os.path.realpath(words.tool)
    root = call("go", "env", "GOROOT").strip()
    arguments = arguments or ["-l", "-e", os.path.join(root, "src/fmt"), os.path.join(root, "src/net")]
    with tempfile.TemporaryDirectory() as folder:
        os.mkdir(os.path.join(folder, "sources"))
        os.chdir(os.path.join(folder, "sources"))
        build(os.path.join(folder, "counted"))
        os.chdir(folder)
        os.environ["COVER_OUT"] = "counters"
        original = call("./counted", *arguments)
        places = adding("counted", {name: number + 1 for name, number in sorted(counters())})
        stem, sums = patched("counted"), (0, 0, 0)
        for run in range(words.runs):
            os.remove("counters")
            if vaknuhol("count", "--blocks", "--threads", "--quiet", "--record", "record", "counted", "--", *arguments) != original:
                sys.exit(f"run {run}: it prints something else")
            some = compare(run, places)
            sums = (sums[0] + some[0], sums[1] + some[1], sums[2] + some[2])
        print(f"{left('gofmt with counters')}; {words.runs} runs: {sums[0]} counters equal, {sums[1]} of them above 0, {sums[2]} left; "
              f"{judge(tool, 'counted', stem, words.changes)}", flush=True)
        shutil.copy(os.path.join(root, "bin/gofmt"), "gofmt")
        stem = patched("gofmt")
        original = call("./gofmt", *arguments)
        if vaknuhol("count", "--blocks", "--threads", "--quiet", "--record", "record", "gofmt", "--", *arguments) != original:
            sys.exit("gofmt prints something else")
        print(f"{left('gofmt')}; {judge(tool, 'gofmt', stem, words.changes)}", flush=True)


if __name__ == "__main__":
    main()
