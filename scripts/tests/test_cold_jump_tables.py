"""What a jump through a table leads to, where some of its entries lead to the cold part of its function, which stands
elsewhere, as where the others of a `switch` end the program or throw."""
import pytest

from tests.calls import run
from tests.command import call
from tests.programs import compile_text
from vaknuhol.program.jump_tables import JumpTables, compared_with
from vaknuhol.program.listing import Listing

GUARD, MASK = "cmp $4, %edi\nja pick.cold", "and $7, %edi"
NEAR_TABLE = "lea table(%rip), %rdx\nmovslq (%rdx,%rdi,4), %rax\nadd %rdx, %rax\nnotrack jmp *%rax"
FAR_TABLE = "mov %edi, %edi\njmp *table(,%rdi,8)"
# pick: twice the first, three times the second, once what is cold, four times the last
TEXT = """.section .text.unlikely, "ax"
.type pick.cold, @function
pick.cold: .cfi_startproc
mov $7, %eax
ret
.cfi_endproc
.size pick.cold, . - pick.cold
.text
.globl _start
.type _start, @function
_start: .cfi_startproc
mov $order, %rbx
next: movzbl (%rbx), %edi
inc %rbx
call pick
cmp $order_end, %rbx
jne next
mov $60, %eax
xor %edi, %edi
syscall
.cfi_endproc
.size _start, . - _start
.type pick, @function
pick: .cfi_startproc
@CHOICE@
.Lfirst: mov $1, %eax
ret
.Lsecond: mov $2, %eax
ret
.Llast: mov $3, %eax
ret
.cfi_endproc
.size pick, . - pick
.type after, @function
after: .cfi_startproc
ret
.cfi_endproc
.size after, . - after
.section .rodata
.balign 8
table: @ENTRIES@
.zero 8
order: .byte 0, 1, 4, 2, 1, 4, 0, 4, 1, 4
order_end:
.section .note.GNU-stack
"""
PLACES = ".Lfirst", ".Lsecond", "pick.cold", "pick.cold", ".Llast"
SIZE = 6  # bytes of each of the last places of pick


def build_pick(choice: str, size: int) -> dict[str, int]:
    """The program pick, and bare without its symbols; the addresses of its functions."""
    entries = ", ".join(f"{place} - table" if size == 4 else place for place in PLACES)
    text = TEXT.replace("@CHOICE@", choice).replace("@ENTRIES@", f"{'.long' if size == 4 else '.quad'} {entries}")
    compile_text("pick", "pick.s", text, "-nostdlib")
    run("strip", "-o", "bare", "pick")
    return {row.split()[2]: int(row.split()[0], 16) for row in run("nm", "pick").splitlines()}


@pytest.mark.parametrize("program, guard", [("pick", GUARD), ("bare", GUARD), ("pick", MASK)])
@pytest.mark.parametrize("table, size", [(NEAR_TABLE, 4), (FAR_TABLE, 8)])
def test_a_table_goes_on_behind_entries_that_lead_to_the_cold_part(place, program, guard, table, size):
    """By the comparison that guards the jump, or by the cold part's name."""
    places = build_pick(f"{guard}\n{table}", size)
    listing = Listing(program)
    end = places["after"]
    assert [*JumpTables(listing.program, listing).targets.values()] == [
        [end - 3 * SIZE, end - 2 * SIZE, places["pick.cold"], end - SIZE]
    ]


def test_a_guard_of_something_else_takes_no_entries_of_a_table_of_functions(place):
    """The comparison would allow for nine."""
    text = TEXT.replace("@ENTRIES@", ".quad .Lfirst, .Lsecond\n.quad after, pick.cold, _start, pick, after, after, after")
    compile_text("pick", "pick.s", text.replace("@CHOICE@", f"cmp $8, %esi\nja pick.cold\n{FAR_TABLE}"), "-nostdlib")
    listing = Listing("pick")
    assert [len(found) for found in JumpTables(listing.program, listing).targets.values()] == [2]


@pytest.mark.parametrize("program", ["pick", "bare"])
def test_counts_behind_such_a_table_agree_with_those_around(place, program):
    build_pick(f"{GUARD}\n{NEAR_TABLE}", 4)
    call("count", program, "--blocks", "--quiet", "--record", "record")
    told = call("report", program, "record")[0]
    assert "contradict" not in told and "blocks were executed" in told


@pytest.mark.parametrize("code, number", [
    ("3c0c", 12), ("4080fe05", 5), ("83ff04", 4), ("3d00010000", 256), ("81f900020000", 512), ("83387f", 127),
    ("84c0", None), ("83e70f", None), ("39f8", None), ("48", None)])  # fmt: skip
def test_a_comparison_with_a_number_is_known_by_its_bytes(code, number):
    assert compared_with(bytes.fromhex(code)) == number
