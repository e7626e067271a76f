/* What is written of a run, step by step. */
#ifndef RECORD_H
#define RECORD_H
#include "stepping.h"

#include <stdio.h>

enum { MOST_KEPT = 16 };

struct record {
    FILE *entries, *deliveries, *path;
    int kept[MOST_KEPT], kept_count; /* the registers that the path has, by their numbers in instructions */
    uint64_t steps, asked, flags_alone;
    struct user_regs_struct arrived; /* as the last step leaves them */
};

/* One step more, from these registers to those. */
void count_step(struct record *record, const struct decoded *insn, struct user_regs_struct *before, struct user_regs_struct *after);

/* Enters the handler of a signal that came, and writes what the kernel changed as a delivery. Where the signal ended a system call, that
   is a step before it. */
enum outcome deliver(struct record *record, const struct decoded *insn, struct user_regs_struct *before, struct user_regs_struct *after);

/* Whether an instruction returns from a handler. */
bool is_return(const struct decoded *insn, const struct user_regs_struct *before);

/* Makes a return from a handler, and writes it as a step, whose answer is as that of any system call, and as a delivery. */
enum outcome make_return(struct record *record, const struct decoded *insn, struct user_regs_struct *before, struct user_regs_struct *after);
#endif
