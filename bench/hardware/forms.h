/* The forms of instructions: those whose meaning the program has exactly, and some that ask the world. */
#ifndef FORMS_H
#define FORMS_H
#include <stddef.h>
#include <stdint.h>

enum { FORMS_MOST = 1024 };

/* What becomes of the flags that the manual leaves undefined. */
enum leaves { NO_FLAG, LOGIC, SHIFT, SIGNED_SHIFT };

/* A form: an instruction with a width and kinds of operands. */
struct form {
    char name[8];
    char width;      /* b 8 bits, v 16 to 64, d 32 and 64, Q 64 by REX.W, q always 64 */
    char other;      /* the width of the ModRM operand: b, w, d, or = the same */
    char opcode[12]; /* prefixes that belong to it first; VEX from C4 or C5 on */
    char mode[5];    /* /r a register and any operand, /m and memory, /e two registers, +r a register in the opcode; in
                        place of    r a digit of the reg field, j before it for a branch; behind it m, e or s for memory, a
                        register or    memory at the stack */
    char imm[4];     /* ib, iz, iv, iw; ic a shift's count; en those of ENTER; cb, cd a displacement */
    char also[4]; /* p pushes, s pops, t pops a target, b pops at rbp, n a count in cl, l a loop's count in rcx, f the
                     memory operand is neither read nor written; S, D bytes at rsi, rdi, c a small count in rcx, x a
                     table at rbx, z rdx is 0 */
    int bits, other_bits, in_memory;
    enum leaves leaves;
    int is_branch;
    /* Of an instruction that asks the world: */
    int touches;         /* the bytes of its operand in memory, where that isn't of the width */
    int aligned;         /* the boundary at which that stands, or 0 */
    const char *changes; /* what may change: a c d b s p registers by their letters, S D rsi, rdi; r, m the registers of
                            the ModRM byte, w its operand in memory, p also what is pushed, D also what is at rdi */
};

/* The exact forms; made at the first call. */
const struct form *all_forms(size_t *count);

/* Forms of instructions that ask the world, as far as this processor has them. */
const struct form *asked_forms(size_t *count);

/* Adds the forms of a text to a list: for each width, and for memory and a register where both may be. */
struct form_list {
    struct form all[FORMS_MOST];
    size_t count;
};
void add_forms(struct form_list *list, const char *text, const struct form *more);
#endif
