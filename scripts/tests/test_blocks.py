"""The blocks of a program, their instructions, and which of them are chosen, against what is written here by hand."""
import re
from typing import Any

import pytest

from tests.calls import run
from tests.doubles import double
from tests.programs import compile_text
from vaknuhol.arguments import Refusal
from vaknuhol.program.blocks import blocks_of, distances, words_of
from vaknuhol.program.listing import Listing
from vaknuhol.program.program_file import Program
from vaknuhol.recording.actions import action_of
from vaknuhol.recording.block_choice import choose, with_support
from vaknuhol.recording.site_choice import candidates

# Blocks are told by names: `back` is what the call returns to, `kernel` its call of the kernel, which is a block by
# itself.
TEXT = """
.globl _start, work
.text
.type _start, @function
_start:
    mov $5, %edi
    call work
    mov %eax, %edi
    mov $60, %eax
    syscall
.size _start, . - _start
.type work, @function
work:
    xor %eax, %eax
1:  add %edi, %eax
    dec %edi
    jnz 1b
    ret
.size work, . - work
.section .note.GNU-stack
"""
COUNTS = {"_start": 2, "back": 2, "kernel": 1, "work": 1, "loop": 3, "last": 1}  # instructions
ALL: dict[str, Any] = {"functions": False, "symbols": None, "jumps": False, "within": None}


@pytest.fixture
def listing() -> Listing:
    compile_text("small", "small.s", TEXT, "-nostdlib")
    return Listing("small")


@pytest.fixture
def labels(listing: Listing) -> dict[str, int]:
    """Where each block begins, by the sizes of instructions."""
    sizes = {"_start": 5 + 5, "back": 2 + 5, "kernel": 2, "work": 2, "loop": 2 + 2 + 2, "last": 1}
    at, found = listing.addr[0], {}
    for name, size in sizes.items():
        found[name], at = at, at + size
    return found | {"end": at}


def test_each_block_has_its_instructions_and_no_more(listing, labels):
    blocks, ends = blocks_of(listing), [*list(labels.values())[1:]]
    assert [(block.first, block.end) for block in blocks] == list(zip(labels.values(), ends))
    assert [len(block.addresses) for block in blocks] == list(COUNTS.values())
    assert all(block.addresses == [it.addr for it in block.instructions] for block in blocks)
    assert all(block.addresses[-1] == listing.addr[block.last] for block in blocks)


def test_blocks_of_functions_are_those_that_begin_one(listing, labels):
    assert [block.first for block in blocks_of(listing, only_functions=True)] == [labels["_start"], labels["work"]]


@pytest.mark.parametrize(
    "words, names",
    [
        (dict(functions=True), ["_start", "work"]),
        (dict(jumps=True), ["loop"]),
        (dict(symbols=re.compile("wor.")), ["work"]),
        ({}, list(COUNTS)),
    ],
    ids=["functions", "jumps", "symbols", "blocks"],
)
def test_arguments_choose_blocks(listing, labels, words, names):
    chosen = choose("small", listing, double(**{**ALL, **words}))
    assert [block.first for block in chosen] == [labels[name] for name in names]


def test_a_range_chooses_blocks_from_its_first_address_on_and_below_its_second(listing, labels):
    words = double(**{**ALL, "within": (labels["back"], labels["loop"])})
    assert [block.first for block in choose("small", listing, words)] == [
        labels[name] for name in ("back", "kernel", "work")
    ]


def test_a_name_that_no_function_has_is_refused(listing):
    with pytest.raises(Refusal):
        choose("small", listing, double(**{**ALL, "symbols": re.compile("other")}))


def test_all_blocks_of_this_program_have_support(listing):
    assert len(with_support(blocks_of(listing), listing, action_of("count"))) == len(COUNTS)


@pytest.mark.parametrize("action", ["count", "cover", "ring:256"])
def test_for_threads_a_system_call_is_no_site(listing, labels, action, capsys):
    """A thread that it begins would begin in its trampoline."""
    blocks = blocks_of(listing)
    kept = with_support(blocks, listing, action_of(action), for_threads=True)
    assert [block.first for block in kept] == [labels[name] for name in COUNTS if name != "kernel"]
    assert "1 block that may begin a thread (system calls) is not patched\n" in capsys.readouterr().err
    alone = [block for block in blocks if block.first == labels["kernel"]]
    with pytest.raises(Refusal, match="each of these blocks is a system call, so none is patched"):
        with_support(alone, listing, action_of(action), for_threads=True)


def test_the_best_site_holds_its_jump_and_is_no_branch(listing, labels):
    sites = {block.first: candidates(block, action_of("count")) for block in blocks_of(listing)}
    assert sites[labels["_start"]] == [
        labels["_start"],
        labels["_start"] + 5,
    ], "a move before a call, both of five bytes"
    assert sites[labels["back"]][0] == labels["back"] + 2, "the move of five bytes"
    assert sites[labels["loop"]] == [
        labels["loop"],
        labels["loop"] + 2,
        labels["loop"] + 4,
    ], "a branch comes after all others of its length"


def test_words_are_read_at_multiples_of_eight():
    data = bytes(range(32))
    assert list(words_of(data, 0x1000)) == [int.from_bytes(data[at : at + 8], "little") for at in (0, 8, 16, 24)]
    assert list(words_of(data, 0x1003)) == [int.from_bytes(data[at : at + 8], "little") for at in (5, 13, 21)]


def test_a_table_of_distances_ends_where_one_leads_to_no_instruction(listing, labels):
    steps = [
        labels["work"] - 0x402000,
        labels["last"] - 0x402000,
        labels["last"] + 1 - 0x402000,
        labels["work"] - 0x402000,
    ]
    table = double(read=lambda addr, size: b"".join(step.to_bytes(4, "little", signed=True) for step in steps))
    assert list(distances(table, 0x402000, listing)) == [labels["work"], labels["last"]]
    assert Program("small").is_code(labels["work"])


# After a return and after a jump int3 fills the room up to `next`; `trap` is led to by a jump, `named` has a name, and
# `back` is what a call returns to; an int3 behind it is no block.
FILLED = """
.globl _start, next, named, last
.text
_start:
    call next
back:
    int3
    int3
    test %eax, %eax
    jz trap
    jmp next
    .rept 5
    int3
    .endr
    .size _start, . - _start
next:
    mov $1, %eax
    ret
    int3
    int3
trap:
    int3
    int3
    mov $2, %eax
    ret
    int3
named:
    int3
    int3
    .size next, . - next
last:
    ret
    .size last, . - last
.section .note.GNU-stack
"""
INT3 = b"\xcc"


def test_an_int3_is_no_block_where_it_fills_room():
    """It stays a start, and one that may be come to is a block."""
    types = "".join(f".type {name}, @function\n" for name in ("_start", "next", "last"))
    compile_text("filled", "filled.s", types + FILLED, "-nostdlib", "-Wl,--build-id=none")
    listing = Listing("filled")
    lines = run("nm", "filled").splitlines()
    places = {name: int(addr, 16) for addr, _, name in map(str.split, lines)}
    traps = [it.addr for it in listing.instructions if it.code == INT3]
    assert len(traps) == 2 + 5 + 2 + 2 + 1 + 2, [hex(it) for it in traps]
    chosen = [block.first for block in blocks_of(listing) if block.first in traps]
    assert chosen == [places[name] for name in ("back", "trap", "named")], [hex(it) for it in chosen]
    sites = [site for block in blocks_of(listing) for site in candidates(block, action_of("count"))]
    assert set(sites) & set(traps) <= set(chosen), "a site stands at an int3 that is no block"
