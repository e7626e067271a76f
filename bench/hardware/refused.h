/* Sequences that the processor refuses (#UD) and the program knows: none of them may be an exact instruction. */
#ifndef REFUSED_H
#define REFUSED_H
#include <stddef.h>

#include "sequences.h"
#include "tool.h"

enum { REFUSED_ASKED, REFUSED_ENDING, REFUSED_EXACT, REFUSED_KINDS };

extern const char *const REFUSED_NAMES[REFUSED_KINDS];

/* Keeps one of each kind: by the map, the opcode, the prefixes, and in the first two maps the ModRM byte's reg field
   and whether its operand is a register. */
void keep_refused(const struct sequence *it);

/* Lets the program step over at most so many of those kept, spread over all of them, and counts what it does. One that
   is exact is told. */
void judge_refused(const struct tool *tool, size_t most, uint64_t *counts);
#endif
