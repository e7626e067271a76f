/* The bases of fs and gs, by instructions where the kernel allows them, else by the kernel. */
#ifndef BASES_H
#define BASES_H
#include <stdint.h>

/* Keeps the bases that the C library has, so that set_own_bases can give them back to a signal's handler. */
void keep_own_bases(void);
void set_own_bases(void);
void take_bases(uint64_t *fs, uint64_t *gs);
void clear_bases(void);
void set_bases(uint64_t fs, uint64_t gs);
#endif
