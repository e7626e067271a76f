#!/usr/bin/env python3
"""Which sites are left where threads share memory, why, and which of them one thread's rewriting leaves, too.

    threads_left.py [--leaders] [--kinds N] [--form FORM].. PROGRAM...

Of each static program three lists of sites are patched: of each function, of each block that ends in a direct jump, and of each block the
instruction that `vaknuhol` takes first; with --leaders the first instruction, and of the jumps these themselves. Each list is patched by
`e9tool threads`, where it refuses the file, since its table would be too long, with the first RESERVE of `vaknuhol`'s that will do (FORM
`plain`); by the same in the loader form (`loader`); and, for one thread, by `e9tool load` with `count` (`load`). A list that is too long for
one file is parted. A row for each:

    sites; left; patched by B1, B2, T1, T2, T3; left as NotRelocatable, NoPlan, Shared; the RESERVE that was needed.

Below it stand the N (4) most frequent kinds of what is left: outcome, mnemonic, operands (a register, a number, memory, memory relative to
the next instruction), length. Needs python3-capstone; $E9TOOL names the program that patches.

How the programs of guests/ are built for it:
    atomics.c, queue.c: gcc -O2 -g -static -no-pie -pthread; cloned.c: the same without -pthread; openmp.c: with -fopenmp instead
    channels.rs, echo.rs: rustc -O -C target-feature=+crt-static -C relocation-model=static
    served.go: CGO_ENABLED=0 go build
    sorted.cc: g++ -O2 -static -no-pie -pthread
Others that were measured: gofmt of Debian's golang-go 1.19; Debian's memcached 1.6.18, configured with CFLAGS="-O2 -fno-pie" and
LDFLAGS="-static -no-pie".
"""
import argparse
import collections
import os
import re
import subprocess
import sys
import tempfile
from collections.abc import Callable, Iterable

import capstone

TOP = os.path.dirname(os.path.dirname(os.path.realpath(__file__)))
sys.path.insert(0, os.path.join(TOP, "scripts"))
from vaknuhol.program.blocks import Block, blocks_of  # noqa: E402, its place is known only now
from vaknuhol.program.listing import Listing  # noqa: E402
from vaknuhol.program.listing_file import BRANCH, JUMP  # noqa: E402
from vaknuhol.recording.actions import action_of  # noqa: E402
from vaknuhol.recording.block_choice import MOST  # noqa: E402
from vaknuhol.recording.patch_report import LEFT  # noqa: E402
from vaknuhol.recording.patching import RESERVES, find_tool, list_text  # noqa: E402
from vaknuhol.recording.site_choice import with_sites  # noqa: E402

SCHEMES, COUNT = ("B1", "B2", "T1", "T2", "T3"), action_of("count")
OUTCOMES = re.compile(r"\nsite ([0-9a-f]+) [0-9]+ (\w+)(?=\n)")
FORMS: dict[str, Callable[[str, str, str], list[str]]] = {
    "plain": lambda program, starts, sites: ["threads", program, starts, sites, "out", "report:report"],
    "loader": lambda program, starts, sites: ["threads", program, starts, sites, "out", "form:loader", "report:report"],
    "load": lambda program, starts, sites: ["load", program, starts, sites, "count", "out", "report"],
}
Sites = list[int]


def site_lists(listing: Listing, leaders: bool) -> dict[str, Sites]:
    """The lists of sites of a program, by what they are of."""
    blocks = blocks_of(listing)
    chosen = {"functions": blocks_of(listing, True), "blocks": blocks,
              "jumps": [it for it in blocks if listing.kind[it.last] in (JUMP, BRANCH) and listing.target[it.last]]}
    if not leaders:
        return {name: sorted({it.site for it in with_sites(of, listing, COUNT)}) for name, of in chosen.items()}
    first: Callable[[Block], int] = lambda block: block.first
    last: Callable[[Block], int] = lambda block: listing.addr[block.last]
    return {name: sorted(set(map(last if name == "jumps" else first, of))) for name, of in chosen.items()}


def outcomes(form: str, program: str, sites: Sites, near: int) -> tuple[list[tuple[int, str]], int]:
    """The outcome of each site, and the number of the first RESERVE, from one on, that did."""
    with open("sites", "w", encoding="ascii") as file:
        file.write(list_text(sites))
    for number in range(near, len(RESERVES)):
        words = [find_tool(), *FORMS[form](program, "starts", "sites"), *RESERVES[number]]
        done = subprocess.run(words, capture_output=True, text=True, check=False)
        if " TooManySegments " not in done.stdout:
            break
    if done.returncode not in (0, 1):
        sys.exit(f"{' '.join(words)}: {done.stdout or done.stderr}")
    with open("report", encoding="ascii") as file:
        return [(int(at, 16), outcome) for at, outcome in OUTCOMES.findall(file.read())], number


def parts_of(sites: Sites) -> list[Sites]:
    """A list in as few parts of equal length as files need."""
    each = -(-len(sites) // -(-len(sites) // MOST))
    return [sites[at:at + each] for at in range(0, len(sites), each)]


def operand_form(operand: "capstone.x86.X86Op") -> str:
    if operand.type != capstone.x86.X86_OP_MEM:
        return "register" if operand.type == capstone.x86.X86_OP_REG else "number"
    return "memory by rip" if operand.mem.base == capstone.x86.X86_REG_RIP else "memory"


def kind_of(code: bytes, at: int, reader: capstone.Cs) -> str:
    """The kind of an instruction, in words."""
    for it in reader.disasm(code, at, 1):
        return " ".join((it.mnemonic, ", ".join(map(operand_form, it.operands)), f"({it.size})"))
    return f"{code[:1].hex()} .. ({len(code)})"


def kinds(left: Iterable[tuple[int, str]], listing: Listing, most: int) -> str:
    """The most frequent kinds of left sites."""
    reader = capstone.Cs(capstone.CS_ARCH_X86, capstone.CS_MODE_64)
    reader.detail = True
    counts: collections.Counter[str] = collections.Counter()
    for at, outcome in left:
        number = listing.at(at)
        assert number is not None
        counts[f"{outcome} {kind_of(listing.program.read(at, listing.size[number]), at, reader)}"] += 1
    return "; ".join(f"{count} {name}" for name, count in counts.most_common(most))


def show(program: str, leaders: bool, most: int, forms: list[str]) -> None:
    """Prints the rows of a program."""
    listing = Listing(program, os.getcwd())
    with open("starts", "wb") as file:
        file.write(listing.starts_text())
    for name, sites in site_lists(listing, leaders).items():
        for form in forms:
            found, near = [], 0
            for part in parts_of(sites):
                of_part, near = outcomes(form, program, part, near)
                found += of_part
            counts = collections.Counter(outcome for _, outcome in found)
            left = [(at, outcome) for at, outcome in found if outcome in LEFT]
            cells = [os.path.basename(program), name, form, len(found), f"{len(left)} ({100 * len(left) / max(len(found), 1):.2f} %)",
                     " ".join(f"{it} {counts[it]}" for it in SCHEMES), " ".join(f"{it} {counts[it]}" for it in LEFT), " ".join(RESERVES[near])]
            print(f"| {' | '.join(map(str, cells))} |", flush=True)
            if left:
                print(f"  left by {form}: {kinds(left, listing, most)}", flush=True)


def main() -> None:
    parser = argparse.ArgumentParser(description=__doc__, formatter_class=argparse.RawDescriptionHelpFormatter)
    parser.add_argument("--leaders", action="store_true", help="first instructions of blocks, and the jumps themselves")
    parser.add_argument("--kinds", type=int, default=4, metavar="N", help="how many kinds are shown of what is left (4)")
    parser.add_argument("--form", action="append", choices=FORMS, help="the forms (all)")
    parser.add_argument("programs", nargs="+", metavar="PROGRAM")
    words = parser.parse_args()
    for program in [os.path.realpath(path) for path in words.programs]:
        with tempfile.TemporaryDirectory() as folder:
            os.chdir(folder)
            show(program, words.leaders, words.kinds, words.form or list(FORMS))
        os.chdir(TOP)


main()
