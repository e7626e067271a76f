/* What each target has: an input as a file, and a way out of what refuses it. The sources of a target are compiled with other names for what takes
   memory and ends a program (tests/fuzz.py), so that all is given back after each input, and a refusal ends the input alone. */
#ifndef HARNESS_H
#define HARNESS_H
#include <stddef.h>
#include <stdint.h>

/* The target's own: it tries an input, whose bytes the file has, too; and forgets what the sources have kept of it. */
void try_input(const uint8_t *bytes, size_t size, const char *path);
void forget_input(void);
#endif
