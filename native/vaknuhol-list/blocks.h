/* Blocks: runs of instructions that are executed equally often.

   A block ends at a jump, a call, a return, before what a jump leads to, before a function, and before and after a call of the
   kernel, which may return twice or be made anew. It ends after an instruction that shares bytes with another one, since both of
   them come to what follows. Where an indirect jump or call leads isn't known; so a block begins, too, at each instruction whose
   address the program holds: a word of its data, a number in an instruction, or a distance in a table of distances from the table
   itself, as compilers write them for `switch`. What only fills room is no block: nops after what doesn't
   return, and each int3 behind another one, or behind a jump or a return, if nothing leads to it and no symbol names it. */
#ifndef BLOCKS_H
#define BLOCKS_H
#include "evidence.h"

struct block {
    uint32_t first, size; /* the number of its first instruction, and how many it has */
};

/* Of a block: that a symbol or a section has a name for it; that a direct call leads there; that a function begins there, as a name, a
   frame, the program's entry point or a call says: a call into the extent of a function that begins before it says so of none. */
enum { HAS_NAME = 1, IS_CALLED = 2, BEGINS = 4 };

struct blocks {
    struct block *all;
    uint8_t *begins_function;
    size_t count;
};

/* The blocks of instructions that are in order. */
void part_blocks(const struct evidence *it, struct blocks *blocks);
#endif
