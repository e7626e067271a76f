# Code that is entered in the middle of straight lines, where only words of data, and the relocation of a function that chooses, lead.
# It returns how many of the lines were executed.
.text
.globl run
run:
    push %rbx
    lea words(%rip), %rsi
    mov $7, %ebx
.Lnext:
    mov %ebx, %eax
    shl $4, %eax
    call *-8(%rsi,%rax)
    dec %ebx
    jnz .Lnext
    call *first(%rip)
    call chosen
    mov taken@GOTPCREL(%rip), %rax
    call *%rax
    mov executed(%rip), %eax
    pop %rbx
    ret
lines:                              # nobody comes here
    incl executed(%rip)
.irp number, 1, 2, 3, 4, 5, 6, 7
.globl line_\number
line_\number:
    incl executed(%rip)
.endr
    ret
    incl executed(%rip)             # nor here
.globl line_0
line_0:
    incl executed(%rip)
    ret
unchosen:                           # nor here
    incl executed(%rip)
.globl choice
choice:
    lea plain(%rip), %rax
    ret
    incl executed(%rip)             # nor here
.globl other
other:
    lea plain(%rip), %rax
    ret
plain:
    incl executed(%rip)
    ret
.globl chosen
.type chosen, @gnu_indirect_function
.set chosen, choice
.globl taken
.type taken, @gnu_indirect_function
.set taken, other
.data
.balign 8
.globl first, words
first:                              # the address that a packed relocation begins with
    .quad line_0
.rept 64                            # so that the words that name code are behind the first 63 of a packed relocation
    .quad words
.endr
words:                              # every other one is a number
.irp number, 1, 2, 3, 4, 5, 6, 7
    .quad \number, line_\number
.endr
.local executed
.comm executed, 4, 4
.section .note.GNU-stack, "", @progbits
