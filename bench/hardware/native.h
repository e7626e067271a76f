/* Runs the guest's code in this process, up to where it leaves through `ret`. */
#ifndef NATIVE_H
#define NATIVE_H
#include "guest.h"

/* What a trial faulted with, where run_native answered 0. */
struct fault {
    int trap; /* the processor's number of the exception, or -1 where the trial doesn't end by itself */
    int is_fetch;
    uint64_t address; /* for a page fault */
    uint64_t rip, regs[16], flags;
};

/* Faults of the guest's code end its run; a timer of the process's own time ends one that goes on and on. */
void catch_faults(void);

/* Runs from the guest's first instruction on, and answers whether it came back without a fault. */
int run_native(const struct run *run);
const struct fault *last_fault(void);

/* Lets x87, SSE and AVX begin with a state in the form of XSAVE64, and end in another one; both 0 for neither. */
void use_states(const void *from, void *to, uint32_t mask);
#endif
