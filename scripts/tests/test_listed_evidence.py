"""What the lister takes from symbols, frames, jump tables and instructions of small programs, against what the assembler
was told."""
import pytest

from tests.calls import run
from tests.programs import compile_text
from vaknuhol.program.listing import Listing
from vaknuhol.program.listing_file import NO_LENGTH

pytestmark = pytest.mark.xdist_group("fit")
END = "mov $60, %eax\nsyscall\nhlt\n"
START = f".globl _start\n.text\n_start: {{}}\n{END}"


def assembled(text: str, is_stripped: bool = True) -> tuple[Listing, dict[str, int]]:
    """The listing of a program, and the addresses of its symbols, which it may have no more."""
    compile_text("program", "program.s", f"{text}\n.section .note.GNU-stack\n", "-nostdlib")
    symbols = {name: int(addr, 16) for addr, _, name in map(str.split, run("nm", "program").splitlines())}
    if is_stripped:
        run("strip", "program")
    return Listing("program"), symbols


# Two symbols at an address each: which of them names it comes first
NAMED = [
    ((".type aa, @function\n.size aa, 3\n"), (".type a, @function\n.size a, 1\n"), "aa", "a"),
    ((".globl bb\n.type bb, @function\n.size bb, 3\n"), (".type b, @function\n.size b, 3\n"), "bb", "b"),
    ((".type cc, @function\n.size cc, 1\n"), (".globl c\n.size c, 3\n"), "cc", "c"),
    ((".type d, @function\n.size d, 3\n"), (".type dd, @function\n.size dd, 3\n"), "d", "dd"),
    ((".type z, @function\n.size z, 3\n"), (".type .e, @function\n.size .e, 3\n"), "z", ".e"),
]


def test_an_address_is_named_by_the_symbol_that_tells_most():
    """By the longer function, by a global one, by a function rather than a label, by the first name, by none with a
    dot."""
    calls = "\n".join(f"call {other}" for *_, other in NAMED)
    code = "\n".join(f"{one}{another}{other}: {name}: inc %eax\nret" for one, another, name, other in NAMED)
    listing, symbols = assembled(f"{START.format(calls)}{code}", is_stripped=False)
    assert [dict(listing.functions)[symbols[name]] for *_, name, _ in NAMED] == [name for *_, name, _ in NAMED]


# How the personality routine is encoded, and the place of the language's own data
@pytest.mark.parametrize("routine, data", [(0x03, 0x03), (0x1B, 0x03), (0x9B, 0x0B), (0x00, 0x1B), (0x0B, 0x00)])
def test_functions_of_a_stripped_program_are_those_of_its_frames(routine, data):
    """With whatever stands before the encoding of their addresses; that of a signal's handler begins a byte before
    it."""
    frame = f".cfi_personality {routine:#x}, routine\n.cfi_lsda {data:#x}, language\n"
    text = f"""{START.format("nop")}
.balign 16
first: .cfi_startproc
{frame}inc %eax
ret
.cfi_endproc
.balign 16
.cfi_startproc
.cfi_signal_frame
{frame}nop
second: mov $15, %eax
syscall
.cfi_endproc
.balign 16
routine: ret
.data
language: .quad 0
"""
    listing, symbols = assembled(text)
    assert {symbols["first"], symbols["second"]} <= set(listing.function_firsts())
    assert symbols["second"] - 1 not in listing.function_firsts()


NEAR, FAR = ".byte 0x77, out - . - 1", ".byte 0x0f, 0x87\n.long out - . - 4"
TABLES = {
    "short": (f"cmp $1, %edi\n{NEAR}\nmov %edi, %edi", 2),
    "far": (f"cmp $1, %edi\n{FAR}\nmov %edi, %edi", 2),
    "tagged": (f"cmp $5, %rdi\n{NEAR}\nshr %rdi", 3),
    "tagged and far": (f"cmp $7, %rdi\n{FAR}\nshr %rdi", 4),
}
CASE = ".byte 0x48, 0xb8\ncase{}: .rept 30\ninc %eax\n.endr\n.byte 0xe9\n.long out - . - 4"


@pytest.mark.parametrize("before, entries", TABLES.values(), ids=TABLES)
def test_a_table_has_as_many_entries_as_the_comparison_before_its_use_allows(before, entries):
    """What they lead to is listed, though what stands before it reads as the head of a longer instruction."""
    numbers = range(entries)
    text = f"""{START.format("call uses")}
uses: {before}
lea table(%rip), %rdx
movslq (%rdx,%rdi,4), %rax
add %rdx, %rax
jmp *%rax
out: ret
{chr(10).join(CASE.format(number) for number in numbers)}
.section .rodata
.balign 8
table: .long {", ".join(f"case{number} - table" for number in numbers)}, 0, 0, 0, 0, 0
"""
    listing, symbols = assembled(text)
    places = [symbols[f"case{number}"] for number in numbers]
    assert all(listing.is_start(place) for place in places)
    assert not any(listing.is_start(place - 2) for place in places)


# Of each row of opcodes of two bytes, with and without more bytes behind their operands
SPELLED = """movups %xmm0, (%rsp); movss 4(%rsp), %xmm1; prefetcht0 (%rsp); nopw 8(%rsp,%rax,2); cvtsi2ss %eax, %xmm0
comiss %xmm0, %xmm1; cmovo %eax, %ecx; movmskps %xmm0, %eax; punpcklbw %mm0, %mm1; pcmpeqb %xmm0, %xmm1; haddps %xmm0, %xmm1
movdqu %xmm0, (%rsp); seto %al; setg (%rsp); bt %eax, %ecx; shld %cl, %eax, %ecx; bts %eax, (%rsp); shrd %cl, %eax, %ecx
imul %ecx, %eax; cmpxchg %ecx, (%rsp); movzbl %al, %eax; popcnt %eax, %ecx; btc %eax, %ecx; bsf %eax, %ecx; bsr %eax, %ecx
movsbl %al, %eax; xadd %al, %cl; xadd %eax, %ecx; movnti %eax, (%rsp); addsubps %xmm0, %xmm1; paddq %mm0, %mm1; psubb %xmm0, %xmm1
paddd 0x12345678(%rsp), %xmm1; pshufw $1, %mm0, %mm1; pshufd $1, (%rsp), %xmm1; psrlw $1, %xmm0; pslld $1, %xmm0
psllq $1, %mm0; shld $1, %eax, (%rsp); shrd $1, %eax, %ecx; btl $1, (%rsp); cmpps $1, %xmm0, %xmm1; pinsrw $1, %eax, %xmm0
pextrw $1, %xmm0, %eax; shufps $1, %xmm0, %xmm1; shufpd $1, 8(%rsp,%rax,4), %xmm1; emms; bswap %eax; bswap %rdi; cpuid; rdtsc
pshufb %xmm0, %xmm1; palignr $1, %xmm0, %xmm1; crc32b %al, %ecx; movbe (%rsp), %eax; pblendw $1, (%rsp), %xmm0"""


def test_each_instruction_has_its_length():
    codes = [code.strip() for line in SPELLED.splitlines() for code in line.split(";")]
    text = "".join(f"code{number}: {code}\n" for number, code in enumerate([*codes, "vpaddd %zmm0, %zmm1, %zmm2"]))
    listing, symbols = assembled(f"{START.format(text)}")
    places = [symbols[f"code{number}"] for number in range(len(codes) + 1)]
    assert list(listing.addr[: len(places)]) == places
    without = [number for number in range(len(places)) if listing.marks[number] & NO_LENGTH]
    assert without == [len(codes)], [codes[number] for number in without[:-1]]
