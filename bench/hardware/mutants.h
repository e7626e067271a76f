/* A processor that is wrong on purpose, to show that what is wrong is found. */
#ifndef MUTANTS_H
#define MUTANTS_H
#include <stddef.h>

#include "forms.h"
#include "trial.h"

/* "flag": SBB leaves another OF; "upper": MOV of 32 bits from memory or a register (8B) keeps the upper half. */
void set_mutant(const char *name);

/* Changes what the processor made of a trial, the last one that was run, and what is expected of it. */
void mutate(const struct form *form, struct trial *trial, size_t number);
#endif
