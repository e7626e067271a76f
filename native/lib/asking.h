/* What an instruction is to a world script: whether the world is asked, by which bytes, and where it may write. Its class is that of
   classes.h; its operands are Zydis's. */
#ifndef ASKING_H
#define ASKING_H
#include <Zydis/Zydis.h>
#include <stdbool.h>
#include <stddef.h>
#include <stdint.h>
#include <sys/user.h>

#include "classes.h"

enum { MOST_SPANS = 8, MOST_BYTES = 15 };

/* An instruction, decoded once. */
struct decoded {
    uint64_t rip;
    enum asking kind;
    bool shifts; /* FLAGS_ALONE where the count isn't 0 */
    ZydisDecodedInstruction insn;
    ZydisDecodedOperand operands[ZYDIS_MAX_OPERAND_COUNT];
    uint8_t bytes[MOST_BYTES];
};

/* Addresses that an instruction may write. */
struct span {
    uint64_t lo, hi;
};

/* Decodes bytes at an address; whether they are an instruction. */
bool decode_bytes(struct decoded *insn, uint64_t rip, const uint8_t *bytes, size_t size);

/* The class of an instruction with these registers: a shift by 0 changes no flag. */
enum asking kind_now(const struct decoded *insn, const struct user_regs_struct *regs);

bool is_syscall(const struct decoded *insn);

/* A system call, also by INT n: of what it writes nothing is known. */
bool enters_kernel(const struct decoded *insn);

bool repeats_string(const struct decoded *insn);

/* The address of a memory operand, with the bit offset of bt, bts, btr and btc. */
uint64_t address_of(const struct decoded *insn, const ZydisDecodedOperand *operand, struct user_regs_struct *regs);

/* Takes AVX-512 out of what CPUID answers. */
void hide_evex(const struct user_regs_struct *before, struct user_regs_struct *after);

/* Where an asked instruction may write, with a margin, if it is no system call; how many spans there are. */
int spans_of(const struct decoded *insn, struct user_regs_struct *regs, struct span spans[MOST_SPANS]);

/* The bytes of the question: those of the instruction, with zeros for a displacement relative to the next one; whether there is one,
   and the address that it names. */
bool question_of(const struct decoded *decoded, uint8_t bytes[MOST_BYTES], uint64_t *names);
#endif
