/* A settled file, as `e9tool settle` writes it (docs/reference/settled.md): a front of whole pages with a stub, and behind it a static PIE,
   byte for byte, which is loaded at a base. */
#ifndef SETTLED_H
#define SETTLED_H
#include "elf_file.h"

/* Gives a settled file, whose segments are known, the sections and symbols of what stands behind the front, with the addresses that they
   have at the base, and applies its relocations to the copy that is read here, so that words that name code are seen. Any other file is
   left as it is. */
void take_settled(struct program *program);
#endif
