# Two functions that odd numbers, and those with the second bit, enter behind the first byte of an instruction: past a lock
# prefix, and in the middle of a mov. No symbol stands there, so objdump has no line there. Its status is what they add up.
.globl _start
.text
.type _start, @function
_start:
    mov $10, %ebx
.Lturn:
    mov %ebx, %edi
    call locked
    mov %ebx, %edi
    call hidden
    dec %ebx
    jnz .Lturn
    mov total, %edi
    mov $60, %eax
    syscall
.type locked, @function
locked:
    test $1, %dil
    jne .Lpast
    mov $7, %esi
    .byte 0xf0                      # lock
.Lpast:
    add %edi, total
    ret
    .byte 0x48, 0x66, 0x90          # rex.W, which objdump shows alone, and a nop
.type hidden, @function
hidden:
    test $2, %dil
    jne .Linside
    .byte 0xb8                      # mov $.., %eax, with the next instruction as number
.Linside:
    add $1, %rdi
    add %edi, total
    ret
.bss
total: .long 0
.section .note.GNU-stack
