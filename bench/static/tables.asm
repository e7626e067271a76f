; Tables of every kind among code: distances and addresses that are jumped by, bytes that look like jumps and calls, text.
bits 64
global _start
section .text

_start:
    xor ebp, ebp
    lea rsi, [rel line]
    mov edx, line.end - line
.next:
    movzx edi, byte [rsi]
    call by_distances
    add ebp, eax
    movzx edi, byte [rsi]
    call by_addresses
    xor ebp, eax
    call by_bytes
    add ebp, eax
    inc rsi
    dec edx
    jnz .next
    mov eax, 1
    mov edi, 1
    lea rsi, [rel line]
    mov edx, line.end - line
    syscall
    mov edi, ebp
    and edi, 127
    mov eax, 60
    syscall

line: db "tables in text", 10
.end:

by_distances:
    and edi, 7
    cmp edi, 4
    ja .other
    lea rcx, [rel .table]
    movsxd rax, dword [rcx + rdi * 4]
    add rax, rcx
    jmp rax
.table: dd .zero - .table, .one - .table, .two - .table, .three - .table, .one - .table
.zero:
    mov eax, 3
    ret
.one:
    lea eax, [rdi + 40]
    ret
.two:
    imul eax, edi, 9
    ret
.three:
    mov eax, edi
    not eax
    ret
.other:
    mov eax, 1
    ret

    db 0xe9, 0x10, 0, 0, 0, 0x74, 0xf0, 0xe8, 0x55, 0xff, 0xff, 0xff, 0xeb, 0xfe, 0x0f, 0x84, 1, 2, 3, 4

by_addresses:
    and edi, 3
    cmp edi, 3
    ja .last
    jmp [.table + rdi * 8]
    align 8, db 0
.table: dq .first, .second, .first, .last
.first:
    mov eax, 17
    ret
.second:
    mov eax, 23
    ret
.last:
    mov eax, 29
    ret

bytes: db 0xe8, 0xc3, 0x75, 0x90, 0xe9, 0x0f, 0x05, 0xcc, 0, 0, 0xc3, 0xeb, 0xff, 0x25, 0x66, 0xf0

by_bytes:
    and edi, 15
    lea rcx, [rel bytes]
    movzx eax, byte [rcx + rdi]
    test eax, 1
    jz .even
    shr eax, 1
.even:
    ret
