/* One instruction as Zydis decodes it, and what the lister tells of it. */
#ifndef INSTRUCTION_H
#define INSTRUCTION_H
#include <Zydis/Zydis.h>
#include <stdint.h>

#include "elf_file.h"

/* How an instruction goes on. BRANCH: a conditional one; KERNEL: a system call; TRAP: what ends a block and goes on after it all
   the same; END: nothing goes on after it, and it leads nowhere. */
enum kind { FALLS, BRANCH, JUMP, CALL, RETURN, JUMP_INDIRECT, CALL_INDIRECT, END, KERNEL, TRAP };

enum {
    SHARED = 1,     /* a byte of it is one of another listed instruction, too */
    FAULTS = 2,     /* it may be the one in which a program crashes, but for the stack's end */
    READS = 4,      /* memory */
    WRITES = 8,     /* memory */
    FIXED = 16,     /* e9tool has no code for another place that does its work, or doesn't know its length */
    NO_LENGTH = 32, /* e9tool doesn't know its length (EVEX, XOP) */
    NOTHING = 64,   /* it fills room: a nop, int3, a lea of a register to itself */
    UNSURE = 128,   /* its evidence is weak: no site stands there */
    BESIDE = 256,   /* a jump there would reach bytes without support: no site stands there */
};

/* Registers: bits 0 to 15 are rax, rcx, rdx, rbx, rsp, rbp, rsi, rdi, r8 to r15. */
enum { X87 = 1 << 16, VECTOR = 1 << 17, MASK = 1 << 18, SEGMENT = 1 << 19, OTHER = 1 << 20, GENERAL = 0xFFFF };

struct instruction {
    uint32_t addr, target;              /* target: of a direct branch or call, 0 where there is none */
    uint32_t held;                      /* an address that it holds: of an operand relative to the next instruction, or absolute */
    uint32_t table;                     /* an address of text at a distance from which it reads, by a register */
    uint32_t number;                    /* an immediate of 32 bits and more that may be an address or flags, else 0 */
    uint32_t reads, writes;             /* registers */
    uint16_t flags_read, flags_written; /* of rflags' low 16 bits */
    uint16_t cases, marks;              /* cases: of a comparison with a small number: that and one */
    uint8_t length, kind, level;
    uint8_t width, stride;    /* bytes of its operand in memory; from one entry of the table to the next, as far as the operand tells */
    bool is_lea, is_absolute; /* whether its operand names an address and isn't read; whether `held` is read or written */
};

/* Decodes what stands at an address, at most up to the end of its part of the text; false where it can't. `is_odd` tells that no
   compiler writes it: such an instruction is good evidence against what leads to it. */
bool decode(const struct program *program, uint32_t addr, struct instruction *it, bool *is_odd);

/* The same, with what Zydis decodes, and all operands. */
bool decode_whole(const struct program *program, uint32_t addr, struct instruction *it, bool *is_odd, ZydisDecodedInstruction *insn,
                  ZydisDecodedOperand operands[ZYDIS_MAX_OPERAND_COUNT]);

/* Whether nothing falls through after it, and nothing returns there. */
bool ends(int kind);

/* Whether it may come back after itself from elsewhere, or may not. */
bool may_return(int kind);
#endif
