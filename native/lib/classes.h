/* What an instruction asks of the world, by docs/reference/formats.md, Classes of instructions. */
#ifndef CLASSES_H
#define CLASSES_H
#include <stdbool.h>
#include <stdint.h>

/* PLAIN: it is exact and defines all that it changes, or it ends a run. FLAGS_ALONE: it is exact, and leaves flags undefined. Of an
   operand relative to the next instruction, 67 isn't looked at, by which it would end a run. */
enum asking { PLAIN, FLAGS_ALONE, ASKED };

/* The class of what the bytes spell; `shifts` tells of FLAGS_ALONE whether flags change only where a count isn't 0. */
enum asking class_of(const uint8_t *bytes, int count, bool *shifts);
#endif
