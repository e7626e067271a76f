#include "mutants.h"

#include <string.h>

#include "harness.h"

static const char *mutant = "";

void set_mutant(const char *name) { mutant = name; }

void mutate(const struct form *form, struct trial *trial, size_t number) {
    struct entry *entry = &((struct entry *)TABLE)[number];
    if (!strcmp(mutant, "flag") && !strcmp(form->name, "sbb")) {
        trial->flags_after ^= OF;
        entry->flags_after = to_kept(trial->flags_after);
    }
    if (strcmp(mutant, "upper") || strcmp(form->opcode, "8b") || form->bits != 32)
        return;
    for (int reg = 0; reg < 16; reg++)
        if (trial->regs_after[reg] != trial->regs[reg]) {
            trial->regs_after[reg] |= trial->regs[reg] >> 32 << 32;
            entry->regs_after[reg] = trial->regs_after[reg];
        }
}
