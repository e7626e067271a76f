/* Instructions of the process, one by one, and the signals that come to it meanwhile. */
#ifndef STEPPING_H
#define STEPPING_H
#include "child.h"

/* What became of an instruction: the run ended, it is made, or a signal came that has a handler, before it or while it waited in a
   system call. */
enum outcome { ENDED, MADE, CAME };

/* Makes one instruction; the registers are those of the stop. */
enum outcome make_step(const struct decoded *insn, struct user_regs_struct *regs);

/* Enters the handler of the signal that came; whether the run goes on in it. */
bool enter_handler(struct user_regs_struct *regs);

/* The program came back from a handler: for a while no signal from outside is let through. */
void rest(void);
#endif
