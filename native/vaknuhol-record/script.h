/* The lines of a world script and of the states (docs/reference/formats.md). */
#ifndef SCRIPT_H
#define SCRIPT_H
#include "asking.h"

#include <stdio.h>

/* The bytes of the stack from the stack pointer on, up to an end. */
struct stack {
    uint64_t end;
    uint8_t *bytes;
};

struct stack read_stack(uint64_t rsp);

void write_question(FILE *entries, const struct decoded *insn);

/* What an instruction changed in registers. */
void write_changes(FILE *entries, struct user_regs_struct *before, struct user_regs_struct *after);

/* The lines that `step` prints of registers. */
void write_state(FILE *states, uint64_t steps, struct user_regs_struct *regs);

/* The registers of a delivery, which is due after so many steps. */
void write_due(FILE *deliveries, uint64_t steps, struct user_regs_struct *regs);

/* The first bytes of a file. */
struct part {
    FILE *file;
    long count;
};

/* The whole script: the deliveries, registers and memory at the entry point, and the entries. */
void write_world(FILE *world, struct user_regs_struct *regs, const struct stack *stack, struct part deliveries, struct part entries);
#endif
