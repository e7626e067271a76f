#!/usr/bin/env python3
"""Debian's static programs, of which the page on programs speaks: each is taken out of its package, which needn't be installed,
patched at all its blocks, and run with and without the patch.

    debian_programs.py [--keep FOLDER] [PACKAGE]...

Without a PACKAGE, those whose name ends in -static, as `apt-cache search` has them, and those of OTHERS. A package is downloaded by
`apt-get download` and unpacked; its programs are the executable ELF files that ask for no interpreter. Those of a package that are
patched have one row, and so have those that are refused for the same reason. The exit status is 1 where a run was another one.
$E9TOOL names the program that patches.
"""
import argparse
import glob
import os
import re
import shutil
import stat
import subprocess
import sys
import tempfile
from collections.abc import Iterator
from typing import NamedTuple

from elftools.elf.dynamic import DynamicSegment
from elftools.elf.elffile import ELFFile
from static_programs import INSTALLED, Case, call, last_line, patched, vaknuhol
from vaknuhol.messages import counted
from vaknuhol.recording.patching import find_tool

OTHERS = ("busybox-static", "sash", "mksh", "klibc-utils", "catatonit", "tini", "libc-bin")
PIE = 0x08000000  # DF_1_PIE
WORDS = {os.path.basename(path): words for path, words in INSTALLED.values()}
WORDS |= {"busybox": INSTALLED["busybox-sh"][1], "mksh": INSTALLED["lksh"][1], "tini-static": ["--", "/bin/echo", "started"]}
OF_NO_WORDS = ["--version"]
HEAD = "| Package | Program | Blocks | Left | Its run, or why it is refused |\n|---|---|---|---|---|"


def packages() -> list[str]:
    found = subprocess.run(["apt-cache", "search", "--names-only", "--", "-static$"], capture_output=True, text=True, check=True).stdout
    return sorted({line.split()[0] for line in found.splitlines()} | set(OTHERS))


def unpacked(package: str, folder: str) -> str:
    """Where a package's files are, or why there are none."""
    done = subprocess.run(["apt-get", "download", "-q", package], cwd=folder, capture_output=True, text=True, check=False)
    files = glob.glob(f"{glob.escape(folder)}/*.deb")
    if done.returncode or not files:
        sys.exit(f"{package} can't be downloaded: {last_line(done.stderr)}")
    subprocess.run(["dpkg-deb", "-x", files[0], f"{folder}/files"], check=True)
    return f"{folder}/files"


def is_static_program(path: str) -> bool:
    """Whether a file is an ELF program without an interpreter; what has a fixed place, or says that it is a PIE, is no library."""
    if os.path.islink(path) or not os.path.isfile(path) or not os.stat(path).st_mode & stat.S_IXUSR:
        return False
    with open(path, "rb") as file:
        if file.read(4) != b"\x7fELF":
            return False
        elf = ELFFile(file)
        if any(segment["p_type"] == "PT_INTERP" for segment in elf.iter_segments()):
            return False
        flags = [tag["d_val"] for segment in elf.iter_segments() if isinstance(segment, DynamicSegment)
                 for tag in segment.iter_tags("DT_FLAGS_1")]
        return elf["e_type"] == "ET_EXEC" or elf["e_type"] == "ET_DYN" and any(flag & PIE for flag in flags)


def programs_in(top: str) -> list[str]:
    paths = (os.path.join(folder, name) for folder, _, names in os.walk(top) for name in names)
    return sorted(path for path in paths if is_static_program(path))


class Tried(NamedTuple):
    """A program: how many blocks it has, and how many were left; whether its run was another one; or why it was refused."""
    name: str
    blocks: int = 0
    left: int = 0
    is_other: bool = False
    reason: str = ""


def tried(path: str, folder: str) -> Tried:
    name = os.path.basename(path)
    os.makedirs(folder, exist_ok=True)
    shutil.copyfile(path, f"{folder}/program")
    os.chmod(f"{folder}/program", 0o755)
    _, output, told = vaknuhol(folder, "fit", "program")
    text = output.decode(errors="replace")
    if ": static, " not in text:
        return Tried(name, reason=last_line(text or told).removeprefix("obstacle: ").removeprefix("program "))
    case = Case(name, "", path, WORDS.get(name, OF_NO_WORDS), False)
    if "image" in case.words:
        subprocess.run(["/sbin/mke2fs", "-q", "-F", "image", "512"], cwd=folder, check=True, stdin=subprocess.DEVNULL, stdout=subprocess.DEVNULL)
    status, output, _ = call(["./program", *case.words], folder)
    cell, is_other = patched(case, folder, "--blocks", (status, output))
    numbers = re.match(r"([0-9]+) of ([0-9]+)", cell)
    if not numbers:
        return Tried(name, reason=cell)
    return Tried(name, int(numbers[2]), int(numbers[2]) - int(numbers[1]), is_other)


def named(names: list[str]) -> str:
    return f"`{names[0]}`" + (f" and {counted(len(names) - 1, 'other')}" if len(names) > 1 else "")


def rows(package: str, folder: str) -> Iterator[tuple[str, bool]]:
    """The rows of a package, and whether each shows a fault: one for those that were patched, and one for each reason of others."""
    all_of = [tried(path, f"{folder}/{number}") for number, path in enumerate(programs_in(unpacked(package, folder)))]
    runs = [it for it in all_of if not it.reason]
    if runs:
        blocks, left, other = sum(it.blocks for it in runs), sum(it.left for it in runs), [it.name for it in runs if it.is_other]
        told = f"ANOTHER: {', '.join(other)}" if other else "the same"
        yield f"| {package} | {named([it.name for it in runs])} | {blocks:,} | {left:,} | {told} |", bool(other)
    for reason in sorted({it.reason for it in all_of} - {""}):
        yield f"| {package} | {named([it.name for it in all_of if it.reason == reason])} | | | {reason} |", False


def main() -> None:
    parser = argparse.ArgumentParser(description=__doc__, formatter_class=argparse.RawDescriptionHelpFormatter)
    parser.add_argument("--keep", metavar="FOLDER", help="where the packages and what is patched of them stay")
    parser.add_argument("packages", metavar="PACKAGE", nargs="*")
    words = parser.parse_args()
    find_tool()
    print(HEAD, flush=True)
    wrong = 0
    with tempfile.TemporaryDirectory() as other:
        for package in words.packages or packages():
            folder = os.path.join(os.path.abspath(words.keep or other), package)
            os.makedirs(folder, exist_ok=True)
            for row, is_fault in rows(package, folder):
                print(row, flush=True)
                wrong += is_fault
    sys.exit(wrong > 0)


if __name__ == "__main__":
    main()
