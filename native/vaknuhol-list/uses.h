/* What code does with an address that it holds: whether it reads what stands there, as data, or leads to it. The code is followed for some
   instructions, into the functions that it calls, too, by all registers and places of the stack that have the address; what becomes of it
   elsewhere isn't known. */
#ifndef USES_H
#define USES_H
#include "evidence.h"

/* Whether code reads memory through an address that an instruction loads into a register or onto the stack, and doesn't lead to it. */
bool reads_through(const struct evidence *it, const struct instruction *from);

/* Whether a function doesn't return to where it was called, or reads what stands there: it takes its return address off the stack and doesn't
   give it back as it was, changes it, or reads through it. */
bool takes_return(const struct evidence *it, uint32_t function);
#endif
