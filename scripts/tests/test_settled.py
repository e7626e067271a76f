"""Static PIEs that e9tool settles: they do the same at a fixed address, can be patched there, and come back."""
import os
import re
import subprocess

import pytest

from tests.calls import run
from vaknuhol.program.program_file import read_bytes

PLACES = (0, 4, 9, 12, 16, 18, 20, 23, 25, 29, 31, 35, 37, 41, 43, 47, 49, 57, 59, 67, 69, 77, 79, 84)
# tells what it finds of itself: its table by the vector and by dl_iterate_phdr, its entry, its header, its arguments
OWN = r"""
#define _GNU_SOURCE
#include <elf.h>
#include <link.h>
#include <stdio.h>
#include <stdlib.h>
#include <sys/auxv.h>
extern const char __ehdr_start[];
extern void _start(void);
static int twice(int n) { return n < 2 ? n : twice(n - 1) + twice(n - 2); }
static int tell(struct dl_phdr_info *info, size_t size, void *data) {
    if (info->dlpi_name[0]) return 0;
    *(int *)data += 1;
    printf("%s entries %d, base %d, table %d\n", info->dlpi_name, info->dlpi_phnum,
           info->dlpi_addr == (ElfW(Addr))__ehdr_start,
           (const char *)info->dlpi_phdr - __ehdr_start == ((const ElfW(Ehdr) *)__ehdr_start)->e_phoff);
    return 0;
}
int main(int argc, char **argv) {
    int found = 0;
    dl_iterate_phdr(tell, &found);
    printf("type %d phdr %ld phnum %ld entry %d\n", ((const ElfW(Ehdr) *)__ehdr_start)->e_type,
           (long)(getauxval(AT_PHDR) - (long)__ehdr_start), getauxval(AT_PHNUM),
           getauxval(AT_ENTRY) == (unsigned long)_start);
    printf("%d %s %s %d\n", argc, argv[1], getenv("TOLD"), twice(15));
    return 7;
}
"""


def build(name: str, text: str, *flags: str) -> None:
    with open(f"{name}.c", "w", encoding="utf-8") as file:
        file.write(text)
    run("gcc", *flags, "-o", name, f"{name}.c")


def call(e9tool: str, words: str) -> tuple[int, str]:
    done = subprocess.run([e9tool, *words.split()], capture_output=True, check=False, timeout=600)
    return done.returncode, done.stdout.decode()


def ran(program: str) -> tuple[int, bytes]:
    os.chmod(program, 0o755)
    words = [f"./{program}", "word"]
    done = subprocess.run(
        words, capture_output=True, check=False, timeout=60, env={"TOLD": "so"}, stdin=subprocess.DEVNULL
    )
    return done.returncode, done.stdout


def starts_of(program: str, base: int, out: str) -> list[int]:
    """The instructions that objdump finds in a program's code, at a base, and those of the stub of what was settled."""
    text = subprocess.run(["objdump", "-d", program], capture_output=True, check=True, text=True).stdout
    stub = int.from_bytes(read_bytes(out)[24:32], "little")
    found = re.findall(r"^ +([0-9a-f]+):\t", text, re.M)
    return sorted({stub + it for it in PLACES} | {base + int(it, 16) for it in found})


@pytest.fixture
def own() -> str:
    build("own", OWN, "-static-pie", "-O2")
    return "own"


@pytest.mark.parametrize("word, base", [("", None), (" base:10000000", 0x10000000), (" base:7f000000", 0x7F000000)])
def test_a_static_pie_does_the_same_at_a_base_and_comes_back(
    e9tool: str, own: str, word: str, base: int | None
) -> None:
    status, told = call(e9tool, f"settle {own} out{word}")
    assert status == 0 and re.fullmatch("settled [0-9a-f]{8}\n", told), told
    assert base is None or int(told.split()[1], 16) == base
    wanted = ran(own)
    assert wanted[0] == 7, wanted
    for text in (b"type 3 phdr 64 phnum", b"base 1, table 1", b"entry 1", b" 610"):
        assert text in wanted[1]
    assert ran("out") == wanted
    assert call(e9tool, "unsettle out new") == (0, f"unsettled {os.path.getsize(own)}\n")
    assert read_bytes("new") == read_bytes(own)


def test_a_settled_program_is_patched_and_all_of_it_taken_back(e9tool: str, own: str) -> None:
    base = int(call(e9tool, f"settle {own} out")[1].split()[1], 16)
    starts = starts_of(own, base, "out")
    symbols = subprocess.run(["nm", own], capture_output=True, check=True, text=True).stdout
    found = re.findall(r"^([0-9a-f]+) [tT] (?:main|tell|twice\S*|printf|_start)$", symbols, re.M)
    sites = sorted({base + int(it, 16) for it in found})
    for name, addrs in (("S", starts), ("T", sites)):
        with open(name, "w", encoding="utf-8") as file:
            file.writelines(f"{it:x}\n" for it in addrs)
    status, told = call(e9tool, "patch out S T count patched report")
    assert status in (0, 1) and re.match(rf"sites {len(sites)} patched [3-9]", told), told
    assert ran("patched") == ran(own)
    assert call(e9tool, "check out patched S report") == (0, "check yes\n")
    assert call(e9tool, "unpatch patched report back") == (0, f"restored {os.path.getsize('out')}\n")
    assert read_bytes("back") == read_bytes("out")
    assert call(e9tool, "unsettle patched new") == (3, "refused UNSETTLE 1 NotSettled\n")
    assert call(e9tool, "unsettle back new")[0] == 0 and read_bytes("new") == read_bytes(own)


@pytest.mark.parametrize(
    "words, told",
    [
        (("-static", "-no-pie"), r"SETTLE 1 NotDyn"),
        (("-pie",), r"SETTLED 9 Dynamic [1-9]"),
        (("-shared", "-fPIC"), r"SETTLE 6 EntryOutside"),
    ],
)
def test_what_is_no_static_pie_is_refused(e9tool: str, words: tuple[str, ...], told: str) -> None:
    build("other", "int main(void) { return 0; }\n", *words)
    status, line = call(e9tool, "settle other out")
    assert status == 3 and re.fullmatch(f"refused {told}\n", line) and not os.path.exists("out"), line
