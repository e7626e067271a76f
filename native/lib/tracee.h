/* A program that is traced step by step, as a plain run would have it. */
#ifndef TRACEE_H
#define TRACEE_H
#include <stdbool.h>

#include "asking.h"
#include "process.h"

/* Starts a program with these options of ptrace; it waits at its first instruction, and addresses are the same in each run. It ends with this
   program, or before by `end_started`. */
pid_t start_program(char **command, long options);
void end_started(void);

/* The program that was started has ended, and its number may be another's. */
void forget_started(void);

void get_regs(pid_t tid, struct user_regs_struct *regs);
void set_regs(pid_t tid, const struct user_regs_struct *regs);
void change_memory(pid_t tid, uint64_t at, const void *from, size_t length);

/* The instruction at an address of a process, or nothing. One that was decoded there before is taken without a look, if it is `kept`. */
const struct decoded *decode(pid_t tid, uint64_t rip, bool is_kept);

/* What the trap flag and AVX-512 would show behind an instruction is put right in the process, as a plain run has it. */
void put_right(pid_t tid, const struct decoded *insn, const struct user_regs_struct *before, struct user_regs_struct *after, bool keeps_evex);

/* A system call that the run does without: rseq, whose memory the kernel changes at any time. */
void refuse_rseq(pid_t tid, const struct user_regs_struct *regs);
#endif
