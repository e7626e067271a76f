"""Small programs whose text holds what is no code, or more than one code: none of it is listed wrongly, and patched
they run as before."""
import os
import re
import subprocess

import pytest

from tests.calls import patch, path_of, run
from tests.programs import compile_text
from vaknuhol.program.listing import Listing
from vaknuhol.program.stepped_run import SteppedRun
from vaknuhol.recording.code_support import Support
from vaknuhol.recording.kept_patches import folder_of

# Each loops `work` over 7 down to 1 and ends with the sum's low seven bits; what lies from `none` up to `past` is no
# code.
FRAME = """
.globl _start
.text
.type _start, @function
_start:
    mov $7, %ebx
    xor %ebp, %ebp
1:  mov %ebx, %edi
    call work
    add %eax, %ebp
    dec %ebx
    jnz 1b
    mov %ebp, %edi
    and $127, %edi
    mov $60, %eax
    syscall
.size _start, . - _start
"""
WORK = ".type work, @function\nwork:\n"
END = ".size work, . - work\n"
OTHER = ".type other, @function\nother:\n    lea 3(%rdi,%rdi), %eax\n    ret\n.size other, . - other\n"
FILLED = WORK + "    cmp $4, %edi\n    jae other\n    mov %edi, %eax\n    ret\n" + END + "none: {fill}\npast:\n" + OTHER
TEXTS = {
    "bytes_like_jumps": WORK
    + "    lea none(%rip), %rsi\n    movzbl (%rsi,%rdi,4), %eax\n    ret\n"
    + END
    + "none: .byte 0xe9, 1, 2, 3, 0, 0xe8, 16, 0, 0, 0, 0x74, 5, 0xeb, 0xfe, 0x0f, 0x84, 9, 0, 0, 0, 0x75, 0xf9\n"
    ".fill 5, 8, 0xeb0574ffe9c3e890\npast:\n" + OTHER,
    "fill_of_zeros": FILLED.format(fill=".skip 23"),
    "fill_of_traps": FILLED.format(fill=".skip 21, 0xcc"),
    "random_bytes": FILLED.format(
        fill=".byte 0xd5, 0x37, 0x12, 0xea, 0x06, 0x61, 0x9a, 0xc4, 0x27, 0x0e, 0xd4, 0x82, 0x1f, 0x60, 0xe7, "
        "0x2f, 0x16"
    ),
    "behind_ud2": WORK + "    test $1, %dil\n    jnz 2f\n    ud2\nnone:\npast:\n2:  test $2, %dil\n    jnz 3f\n"
    "    mov %edi, %eax\n    ret\n"
    "    ud2\n3:  lea 5(%rdi), %eax\n    ret\n" + END,
    "table_in_text": WORK
    + "    mov %edi, %edi\n    cmp $3, %edi\n    ja 9f\n    lea none(%rip), %rdx\n    movslq (%rdx,%rdi,4), %rax\n"
    "    add %rdx, %rax\n    jmp *%rax\nnone: .long 5f - none, 6f - none, 7f - none, 8f - none\npast:\n"
    "5:  mov $1, %eax\n    ret\n"
    "6:  mov $20, %eax\n    ret\n7:  lea 9(%rdi), %eax\n    ret\n8:  imul $5, %edi, %eax\n    ret\n"
    "9:  mov %edi, %eax\n    ret\n" + END,
    "one_zero": WORK
    + "    call *first(%rip)\n    ret\n"
    + END
    + ".balign 16\n    push %rbx\n    mov %edi, %ebx\n    call *second(%rip)\n"
    "    add %ebx, %eax\n    inc %eax\n    pop %rbx\n    ret\nnone: .byte 0\npast:\n"
    "    lea 3(%rdi), %eax\n    imul $5, %eax, %eax\n    xor $85, %eax\n"
    "    sub $2, %eax\n    neg %eax\n    ret\n    .byte 0\n"
    + OTHER
    + ".data\nfirst: .quad none - 15\nsecond: .quad past\n",
    "word_like_an_address": WORK
    + "    call *first(%rip)\n    ret\n"
    + END
    + ".balign 16\n5:  mov %rdi, %rax\n    .byte 0x48\nnone: .byte 0x8d\n"
    "past: .byte 0x44, 0, 3                # of lea 3(%rax,%rax), %rax\n    add $9, %eax\n    ret\n"
    + OTHER
    + ".data\nfirst: .quad 5b, none\n",
    "label_as_object": WORK
    + "    mov %edi, %eax\n    and $1, %eax\n    jmp *places(,%rax,8)\nodd: mov $9, %eax\n    ret\n"
    "even: lea (%rdi,%rdi,4), %eax\n"
    "    ret\n" + END + ".type odd, @object\n.size odd, 1\n.type even, @object\n.size even, 1\n.data\n"
    "places: .quad even, odd\n.text\nnone:\npast:\n",
    "overlapping": WORK + "    xor %eax, %eax\n    test $2, %dil\n    jne 2f\n    .byte 0xb9\n2:  add $1, %rdi\n"
    "    add %edi, %eax\n    ret\n" + END + "none:\npast:\n",
}
# Blocks whose bytes lead each jump below the program, unless a neighbour is displaced for it; and all neighbours that
# are long enough lack support: code for which there is a table without an end alone, or an instruction beside what is
# no code.
TIGHT = WORK + "    test $1, %dil\n    jz 1f\n{}1:  jmp 2f\n2:  .fill 10, 2, 0xc089\n    mov %edi, %eax\n    ret\n"
BY_TABLE = (
    "    lea table(%rip), %rdx\n    and $3, %edi\n    movslq (%rdx,%rdi,4), %rax\n    add %rdx, %rax\n    jmp *%rax\n"
)
NEIGHBOURS = {
    "weak_neighbour": TIGHT.format(BY_TABLE)
    + "3:  lea 0x11223344(%rdi), %eax\n    movabs $0x1122334455, %rcx\n    xor %rcx, %rax\n    ret\n"
    ".section .rodata\n.align 4\ntable: .long 3b - table, 3b - table, 3b - table, 3b - table\n",
    "neighbour_of_bytes": TIGHT.format("")
    + END
    + ".type far, @function\nfar:\n    lea 16(%rdi,%rdi), %eax\n    ud2\n.size far, . - far\n"
    "    .byte 0, 16, 6, 6, 6, 6\n",
}
ODD = {"behind_ud2": "    and $-2, %edi\n    or $1, %edi\n"}


def stepped(program: str, steps: int) -> list[list[str]]:
    """What a run under single steps tells, line by line."""
    return SteppedRun(program, [], steps, folder_of(program)).lines


def build_text(name):
    """The program, and a copy that is stripped of its symbols."""
    with open(f"{name}.s", "w", encoding="ascii") as file:
        file.write(
            FRAME + {**TEXTS, **NEIGHBOURS}[name].replace(WORK, WORK + ODD.get(name, "")) + ".section .note.GNU-stack\n"
        )
    run("gcc", "-nostdlib", "-static", "-no-pie", "-o", name, f"{name}.s")
    run("strip", "-o", f"{name}_bare", name)
    return name, f"{name}_bare"


def status_of(*words):
    return subprocess.run(words, check=False, stdout=subprocess.DEVNULL).returncode


def listed_rightly(program, low, high):
    """No start lies where there is no code; the program executes listed starts alone, and reads no listed byte. How
    many starts it has."""
    listing = Listing(program)
    wrong = [addr for addr in listing.addr if low <= addr < high]
    assert not wrong, f"{program}: {[hex(addr) for addr in wrong]} are listed, and no code"
    told = stepped(program, 0)
    assert told[1] == ["ended", str(status_of(f"./{program}"))], told
    assert len(told) == 2 and int(told[0][1]) > 50, f"{program}: {told}"
    return len(listing.starts)


def patched_rightly(program, *words):
    """Patched at its blocks or functions it ends as before, and is sound."""
    patch(program, *words, "--count", status=(0, 1))
    names = [path_of(program, "count", it) for it in ("patched", "starts", "report")]
    assert run(os.environ["E9TOOL"], "check", program, *names) == "check yes\n"
    assert status_of(f"./{names[0]}") == status_of(f"./{program}"), f"{program}, patched, ends otherwise"


@pytest.mark.parametrize("name", NEIGHBOURS)
def test_no_jump_has_a_byte_that_lacks_support(name):
    """Although e9tool would displace a neighbour that does; the blocks are left, and that is told."""
    build_text(name)
    told = patch(name, "--blocks", "--count", status=(1,))
    assert "beside what may be no code" in told, told
    with open(path_of(name, "count", "report"), encoding="ascii") as file:
        report = file.read()
    assert not Support(Listing(name)).sites_without(report) and not re.search(" T3$", report, re.M), report
    patched_rightly(name, "--blocks")


@pytest.mark.parametrize("name", TEXTS)
def test_no_more_than_code_is_listed(name):
    """Also of the program without symbols; patched it ends as before."""
    whole, bare = build_text(name)
    places = dict((text, addr) for addr, text in Listing(whole).functions)
    low, high = (places.get(it, 0) for it in ("none", "past"))
    for program in (whole, bare):
        assert listed_rightly(program, low, high) > 10
        patched_rightly(program, "--blocks")
    patched_rightly(whole, "--functions")


@pytest.mark.parametrize("status", (0, 9))
def test_single_steps_tell_how_a_run_ends(status):
    """A status of 0 is an end, too; a run of fewer steps is stopped."""
    name = f"ends_with_{status}"
    compile_text(name, f"{name}.s", f".globl _start\n_start: mov ${status}, %edi\nmov $60, %eax\nsyscall\n", "-nostdlib")
    assert stepped(name, 0)[:2] == [["steps", "3"], ["ended", str(status)]]
    assert stepped(name, 2)[:2] == [["steps", "2"], ["stopped"]]
