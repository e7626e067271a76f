"""Data in the text: what code reads through an address isn't listed as code, nor what stands behind a call that doesn't
return there."""
import sys

import pytest

from tests.calls import TOP, match, run
from tests.command import call
from tests.programs import compile_text
from vaknuhol.program.listing import Listing
from vaknuhol.program.listing_file import DOUBTFUL

pytestmark = pytest.mark.xdist_group("fit")
START = ".globl _start\n.text\n_start: "
STRING = f"""{START}call print
.asciz "HISTCMD\\n"
behind: mov $60, %eax
xor %edi, %edi
syscall
print: pop %rsi
mov %rsi, %rdx
1: cmpb $0, (%rdx)
lea 1(%rdx), %rdx
jne 1b
push %rdx
lea -1(%rdx), %rdx
sub %rsi, %rdx
mov $1, %eax
mov $1, %edi
syscall
ret
"""
# Functions that return to where they were called, though they take the address off the stack or read it.
RETURNING = {
    "gives_it_back": "pop %rdi\nmov $58, %eax\nsyscall\npush %rdi\nret",
    "jumps_there": "pop %rdx\nadd $1, %eax\njmp *%rdx",
    "keeps_it": "mov (%rsp), %rax\nmov %rax, place(%rip)\nxor %eax, %eax\nret",
    "tells_it": "push %rbx\nmov 8(%rsp), %rdi\ncall keeps\npop %rbx\nret\nkeeps: mov %rdi, place(%rip)\nret",
    "leaves_the_room": "pop %r12\nmov %r12, place(%rip)\nsub $8, %rsp\njmp returns\nreturns: ret",
    "has_a_child": "mov $56, %eax\nsyscall\ntest %eax, %eax\nje 1f\nret\n1: pop %rax\npop %rdi\ncall *%rax\nhlt",
    "calls_who_takes": "call takes\n.ascii \"[Y[\"\nret\ntakes: pop %rdx\nadd $3, %rdx\njmp *%rdx",
    "is_no_end": "push %rbx\ncall stops\n.balign 16\nother: mov 8(%rsp), %rax\nmov (%rax), %eax\nret\nstops: hlt",
}
# And those that read there, or don't return.
TAKING = {
    "changes_it": "addq $5, (%rsp)\nret",
    "exchanges_it": "xchg %rax, (%rsp)\nadd $5, %rax\nxchg %rax, (%rsp)\nret",
    "reads_by_frame": "push %rbp\nmov %rsp, %rbp\nmov 8(%rbp), %rsi\nmov (%rsi), %eax\nleave\nret",
    "reads_by_another": "mov (%rsp), %rdi\ncall reads\nret\nreads: movzbl (%rdi,%rcx), %eax\nret",
    "reads_from_the_stack": "mov (%rsp), %rax\npush %rax\nmov (%rsp), %rdx\nmovzbl (%rdx), %eax\npop %rdx\nret",
    "leaves_it": "pop %rax\nret",
    "reads_by_string": "pop %rsi\nlodsb\npush %rsi\nret",
}
# How code has the address of a function that it calls, or hands to another one.
HOLDING = [
    "mov $other, %edi\ncall takes",
    "lea other(%rip), %rdx\ncall *%rdx",
    "push $other\nret",
    "mov pointer(%rip), %rsi\njmp *%rsi",
]
# How code has the address of a table of twelve letters, which read as pushes, and reads it.
READING = {
    "at_a_distance": "movzbl table(%rcx), %eax",
    "by_lea": "lea table(%rip), %rdx\nmovzbl (%rdx,%rcx), %eax",
    "by_number": "mov $table, %edx\nadd $3, %rdx\ncmp %ecx, %edi\nje 1f\nmovzbl (%rdx), %eax\n1:",
    "by_an_argument": "mov $table, %edi\ncall reads",
    "by_the_stack": "push $table\nmov (%rsp), %rdx\nmov (%rdx), %eax\npop %rdx",
    "by_data": "mov pointer(%rip), %rsi\nmov (%rsi,%rcx,2), %ax",
}


def test_a_string_behind_a_call_is_left_and_told():
    compile_text("program", "program.s", STRING, "-nostdlib")
    for action in ("count", "cover"):
        assert call(action, "--blocks", "--quiet", "program")[0] == "HISTCMD\n"
    told = call("fit", "program", status=1)[0]
    assert match("obstacle: ([0-9]+) bytes .* of the text may be no code", told).group(1) == "9"


def behind_call(name: str, code: str) -> bool:
    """Whether what stands behind a call of a function is listed."""
    text = f"{START}call {name}\nbehind: inc %ecx\nmov %ecx, %eax\nhlt\n{name}: {code}\n.bss\nplace: .quad 0\n"
    compile_text("program", "program.s", text, "-nostdlib")
    symbol = int(match(r"([0-9a-f]+) t behind\n", run("nm", "program")).group(1), 16)
    run("strip", "program")
    return Listing("program").is_start(symbol)


@pytest.mark.parametrize("name", RETURNING)
def test_code_behind_a_call_that_returns_is_listed(name):
    assert behind_call(name, RETURNING[name])


@pytest.mark.parametrize("name", TAKING)
def test_what_stands_behind_a_call_that_does_not_return_there_is_not_listed(name):
    assert not behind_call(name, TAKING[name])


@pytest.mark.parametrize("name", READING)
def test_a_table_that_code_reads_is_not_listed(name):
    """Though it reads as code, up to a return, and leads to code behind that."""
    text = f"""{START}call uses
hlt
uses: {READING[name]}
ret
.balign 16
table: .ascii "PQRSTUVWXYZ["
ret
.byte 0
call uses
ret
.balign 16
reads: movzbl (%rdi,%rcx), %eax
ret
.data
pointer: .quad table
"""
    compile_text("program", "program.s", text, "-nostdlib")
    table = int(match(r"([0-9a-f]+) t table\n", run("nm", "program")).group(1), 16)
    run("strip", "program")
    listing = Listing("program")
    assert not any(table <= addr < table + 20 for addr in listing.addr)
    assert any(span.low <= table < span.high for span in listing.ranges(DOUBTFUL))


@pytest.mark.parametrize("use", HOLDING)
def test_a_function_whose_address_is_held_is_listed(use):
    text = f"""{START}call uses
hlt
uses: {use}
ret
.balign 16
other: push %rbx
inc %ebx
pop %rbx
ret
.balign 16
takes: mov %rdi, pointer(%rip)
call *%rdi
mov (%rsp), %rax
ret
.data
pointer: .quad other
"""
    compile_text("program", "program.s", text, "-nostdlib")
    other = int(match(r"([0-9a-f]+) t other\n", run("nm", "program")).group(1), 16)
    run("strip", "program")
    assert Listing("program").is_start(other)


def test_of_many_strings_and_tables_none_is_listed():
    told = run(sys.executable, f"{TOP}/bench/data_in_text.py", "--strings", "100")
    assert "strings: 100 in the text, 0 silent" in told and "tables: 160 in the text, 0 silent" in told, told


def table_after_code(reading: str, table: str, place: int) -> tuple[Listing, int]:
    """The listing of a stripped program with a table that follows code at once, which is at such a place, and the
    table's address."""
    text = f"""{START}call uses
hlt
.org {place}
other: push %rbx
pop %rbx
ret
uses: {reading}
ret
table: {table}
behind: inc %ecx
mov %ecx, %eax
ret
.data
places: .quad table
"""
    compile_text("program", "program.s", text, "-nostdlib", "-Wl,-Ttext=0x404000")
    at = int(match(r"([0-9a-f]+) t table\n", run("nm", "program")).group(1), 16)
    run("strip", "program")
    return Listing("program"), at


@pytest.mark.parametrize("place", [0x490, 0x4C7])
def test_an_array_of_addresses_is_not_listed(place):
    """Though only a word of the data has its address, and it begins with a nop, or each of its words reads as a move to
    memory, up to a function."""
    held = "call behind\nmov $places, %edx\nmov (%rdx,%rcx,8), %rdx\ncall *8(%rdx)"
    listing, table = table_after_code(held, ".quad other, other, other, other", place)
    assert listing.is_start(table + 32)
    assert not any(table <= addr < table + 32 for addr in listing.addr)
    assert any(span.low <= table < span.high for span in listing.ranges(DOUBTFUL))


@pytest.mark.parametrize("reading", ["movzbl table-1(%rcx)", "mov table-8(,%rcx,8)"])
def test_a_table_whose_entries_are_counted_from_one_on_is_not_listed(reading):
    """Though there is code in the place of the entry before them, and they read as pushes."""
    listing, table = table_after_code(f"call behind\n{reading}, %eax", '.ascii "PQRSTUVWPQRSTUVW"', 0x490)
    assert listing.is_start(table - 1) and listing.is_start(table + 16)
    assert not any(table <= addr < table + 16 for addr in listing.addr)
    assert any(span.low <= table < span.high for span in listing.ranges(DOUBTFUL))
