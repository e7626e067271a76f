"""Which listed bytes the stepper sees read as data, by each kind of address."""
import pytest

from tests.calls import run
from tests.programs import compile_text
from vaknuhol.native import program

TEXT = """.globl _start, code
_start: call code
mov $code, %ebx
xor %esi, %esi
{reads}
mov $60, %eax
xor %edi, %edi
syscall
.balign 16
.type code, @function
code: mov $0x11223344, %eax
mov $0x55667788, %ecx
ret
.size code, . - code
.section .note.GNU-stack
"""
READS = {  # and from where to where in `code`
    "mov (%rbx), %al": (0, 1),
    "mov 2(%rbx), %ax": (2, 4),
    "mov 1(%ebx), %eax": (1, 5),
    "inc %esi; mov (%rbx,%rsi,4), %al": (4, 5),
    "mov code+3(%rip), %eax": (3, 7),
    "push (%rbx)": (0, 8),
    "jmp far; .org 0x10000; far: mov 6(%rbx), %al": (6, 7),
    "nopw (%rbx)": None,
    "lea (%rbx), %rax": None,
}


@pytest.mark.parametrize("reads", READS)
def test_what_is_read_of_the_text_is_told(tmp_path: object, monkeypatch: pytest.MonkeyPatch, reads: str) -> None:
    monkeypatch.chdir(str(tmp_path))
    compile_text("program", "program.s", TEXT.format(reads=reads), "-nostdlib")
    run(program("vaknuhol-list"), "program", "list")
    run(program("vaknuhol-step"), "list", "0", "told", "./program")
    code = next(int(line.split()[0], 16) for line in run("nm", "program").splitlines() if line.endswith(" code"))
    with open("told", encoding="ascii") as file:
        told = [line.strip() for line in file if line.startswith("read")]
    place = READS[reads]
    assert told == ([f"read {code + place[0]:x} {code + place[1]:x}"] if place else [])
