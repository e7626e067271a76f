/* Restartable sequences (rseq of Linux): the kernel leads a thread that it interrupts in one to an abort address. It looks at where the thread
   stands, so nothing of a sequence may be done elsewhere. Each is told by a struct rseq_cs of the data. */
#ifndef RESTARTS_H
#define RESTARTS_H
#include <stdbool.h>

#include "evidence.h"

/* Finds the sequences: of the section __rseq_cs, and of words of the data that form such a struct. */
void find_restarts(struct evidence *it);

/* Whether an instruction is one of a sequence, of what stands before it up to the last branch, as that begins it, or of its signature, which the
   kernel compares. */
bool is_restarted(const struct evidence *it, const struct instruction *one);
#endif
