"""Where indirect jumps lead by their tables, against the symbols that the assembler gives the places."""
import pytest

from tests.calls import run
from tests.programs import compile_text
from vaknuhol.program.jump_tables import NEAR, JumpTables, is_indirect_jump, named_table
from vaknuhol.program.listing import Listing
from vaknuhol.program.program_file import Program

# `by_address` has a table of addresses, `by_distance` one of distances, which are negative; `far` names its table far
# above its jump; `lone` jumps without any. Behind each table stands a word that leads into another function.
TEXT = """
.globl _start
.text
.type _start, @function
_start:
    xor %edi, %edi
    call by_address
    call by_distance
    call far
    call lone
    mov $60, %eax
    syscall
.size _start, . - _start
.type by_address, @function
by_address:
    cmp $2, %edi
    ja .La2
    mov %edi, %edi
.Ljump_a:
    jmp *addresses(,%rdi,8)
.La0: inc %eax
.La1: inc %eax
.La2: ret
.size by_address, . - by_address
.type by_distance, @function
by_distance:
    lea distances(%rip), %rdx
    movslq (%rdx,%rdi,4), %rax
    add %rdx, %rax
.Ljump_d:
    jmp *%rax
.Ld0: inc %eax
.Ld1: ret
.size by_distance, . - by_distance
.type far, @function
far:
    lea further(%rip), %rdx
    .rept 50
    inc %ecx
    .endr
    movslq (%rdx,%rdi,4), %rax
    add %rdx, %rax
.Ljump_f:
    jmp *%rax
.Lf0: inc %eax
.Lf1: inc %eax
.Lf2: ret
.size far, . - far
.type lone, @function
lone:
    lea .Lback(%rip), %rax
.Ljump_l:
    jmp *%rax
.Lback:
    ret
.size lone, . - lone
.section .rodata
.balign 8
addresses: .quad .La0, .La1, .La2, .La1, .Ld0
distances: .long .Ld0 - distances, .Ld1 - distances, .Lf0 - distances
further: .long .Lf0 - further, .Lf1 - further, .Lf2 - further, .La0 - further
.section .note.GNU-stack
"""
# Places in functions have no names in the program, which would end these, but distances have
INSIDE = "jump_a a0 a1 a2 jump_d d0 d1 jump_f f0 f1 f2 back".split()


@pytest.fixture(name="named")
def named_places(place) -> dict[str, int]:
    distances = "".join(f".set {name}, .L{name} - _start\n" for name in INSIDE)
    compile_text("tables", "tables.s", TEXT + distances, "-nostdlib")
    symbols = [line.split() for line in run("nm", "tables").splitlines()]
    found = {name: int(addr, 16) for addr, _, name in symbols}
    return {name: found[name] + found["_start"] * (name in INSIDE) for name in found}


def tables() -> JumpTables:
    return JumpTables(Program("tables"), Listing("tables"))


def test_a_jump_leads_to_the_entries_of_its_table_in_its_own_function(named):
    """To each once, in their order."""
    wanted = {"jump_a": ("a0", "a1", "a2"), "jump_d": ("d0", "d1"), "jump_f": ("f0", "f1", "f2")}
    assert named["jump_f"] - named["far"] > NEAR
    assert tables().targets == {named[jump]: [named[it] for it in to] for jump, to in wanted.items()}


def test_the_entries_of_all_tables_are_known_and_no_word_behind_them(named):
    sizes = {"addresses": (4, 8), "distances": (2, 4), "further": (3, 4)}
    found = tables()
    assert found.tables == {named[name] for name in sizes}
    assert found.places == {named[name] + size * at for name, (count, size) in sizes.items() for at in range(count)}


def test_a_function_goes_from_its_first_address_to_that_of_the_next(named):
    found = tables()
    bounds = named["by_distance"], named["far"]
    assert [found.bounds(at) for at in (bounds[0], bounds[0] + 1, bounds[1] - 1)] == [bounds] * 3
    assert found.bounds(bounds[1])[0] == bounds[1] and found.bounds(bounds[0] - 1) == (named["by_address"], bounds[0])
    assert found.bounds(named["back"]) == (named["lone"], 1 << 64)
    assert found.bounds(named["_start"] - 1) == (0, named["_start"])


@pytest.mark.parametrize("code, table", [
    ("ff24c578563412", (0x12345678, 8)),  # jmp *0x12345678(,%rax,8)
    ("3eff24c578563412", (0x12345678, 8)),  # notrack
    ("428b04c578563412", (0x12345678, 8)),  # mov 0x12345678(,%r8,8), with a prefix
    ("488d05f8ffffff", (0x401000 - 8, 4)),  # lea -8(%rip)
    ("488d0508000000", (0x401000 + 8, 4)),
    ("ff248578563412", None),  # by four
    ("ff14c578563412", None),  # a call
    ("ff24c078563412", None),  # no displacement alone
    ("488d80f8ffffff", None),  # lea -8(%rax)
    ("488d0508", None),
    ("ff", None),
])
def test_an_instruction_names_a_table_by_its_operand(code, table):
    assert named_table(bytes.fromhex(code), 0x401000) == table


@pytest.mark.parametrize("code, is_jump", [
    ("ffe0", True), ("41ffe3", True), ("3effe0", True), ("ff24c578563412", True),
    ("ffd0", False), ("ff", False), ("41ff", False), ("3e", False), ("89e0", False),
])  # fmt: skip
def test_an_indirect_jump_is_known_by_its_bytes_however_few(code, is_jump):
    assert is_indirect_jump(bytes.fromhex(code)) is is_jump
