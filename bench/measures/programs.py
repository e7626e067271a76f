"""What commands take for real programs, all blocks that end in a direct jump counted, beside objdump, cp and Zydis."""
import functools
import os
import re
import shutil
import subprocess
import sys
import tempfile

from measures.running import NONE, TOP, Bench, Taken, cell, table

NEAR = "00c00000-7fff0000"  # so that new code lies together, and `patch` writes few program headers
PROGRAMS = ("bench/costs.c", "busybox", "bash-static", "zsh-static")


def found_program(bench: Bench, name: str) -> str | None:
    """The path of a program, which is compiled where it is one of ours."""
    source = os.path.join(TOP, name)
    return bench.compiled(source, "-g", "-O2", "-static", "-no-pie") if name.endswith(".c") else shutil.which(name)


@functools.cache
def lists_of(program: str) -> tuple[str, str]:
    """STARTS and SITES of a program as the scripts list them, of the sites as many as a file may have."""
    script = os.path.join(TOP, "scripts", "starts_and_sites.py")
    with tempfile.TemporaryDirectory() as folder:
        paths = os.path.join(folder, "starts"), os.path.join(folder, "sites")
        words = [sys.executable, script, program, *paths, "--jumps", "--count"]
        found = subprocess.run(words, capture_output=True, text=True, check=False)
        fewer = re.search(r"(--within) (\S+) keeps the first", found.stderr)
        if fewer:
            found = subprocess.run([*words, *fewer.groups()], capture_output=True, text=True, check=False)
        if found.returncode:
            sys.exit(f"speed.py: {program} can't be listed: {found.stderr[-300:]}")
        starts, sites = (open(path, encoding="ascii").read() for path in paths)
    return starts, sites


def write_lists(bench: Bench, program: str) -> tuple[int, int]:
    """Writes both lists; how many starts and sites there are."""
    starts, sites = lists_of(program)
    bench.write("starts", starts)
    bench.write("sites", sites)
    return starts.count("\n"), sites.count("\n")


def zydis(bench: Bench, program: str, number: int) -> Taken | None:
    """What Zydis takes to decode as many instructions of a program's text."""
    if not shutil.which("objcopy"):
        return None
    bench.done(["objcopy", "-O", "binary", "-j", ".text", program, "text"])
    return bench.took([bench.compiled("measures/decodings.c"), "text", str(number)])


def row_of(bench: Bench, name: str, program: str) -> list[str]:
    """What each command takes for a program, and each yardstick."""
    starts, sites = write_lists(bench, program)
    lists = [program, "starts", "sites", "count", "out", "report"]
    loaded = bench.took([bench.tool, "load", *lists])
    patched = bench.took([bench.tool, "patch", *lists, NEAR])
    left = re.search(r"left (\d+)", patched.told)
    size = os.path.getsize(program)
    return [
        f"{name}, {size:,} bytes", f"{starts:,}", f"{sites:,}", f"{int(left.group(1)):,}" if left else "",
        cell(patched), cell(loaded), cell(bench.took([bench.tool, "check", program, "out", "starts", "report"])),
        cell(bench.took([bench.tool, "unpatch", "out", "report", "again"])), f"{(10 * size + 64 * starts) / 2**20:.0f}",
        cell(bench.least(["objdump", "-d", program])), cell(zydis(bench, program, starts)),
        cell(bench.least(["cp", program, "copy"])),
    ]


def programs(bench: Bench) -> list[str]:
    """A row for each program."""
    paths = {name: found_program(bench, name) for name in PROGRAMS}
    rows = [row_of(bench, name, path) if path else [name, NONE] for name, path in paths.items()]
    head = ("Program | starts | sites | left | `patch`, s, MiB | `load` | `check` | `unpatch` | MiB aimed at | "
            "`objdump -d` | Zydis | `cp`")
    return table(head, [[*row, *[""] * (12 - len(row))] for row in rows])
