/* World scripts, and what `step` prints. */
#ifndef WORLDS_H
#define WORLDS_H
#include <stddef.h>
#include <stdint.h>

#include "tool.h"

/* Registers in the processor's order, rax 0 to r15. */
struct state {
    uint64_t regs[16], flags, fs, gs, rip;
};

/* How a run of `step` ended. */
struct ending {
    char stop[16]; /* none, NoByte, UnknownInsn, Ending, WorldEmpty or WorldDiffers */
    uint64_t at;   /* the stop's address */
    uint64_t steps, left, outside;
    struct state state;
};

extern const char *const REGISTER_NAMES[16];

/* The script WORLD of the folder: begun with a start state, then regions, then questions with what is given, then
 * ended. */
FILE *begin_world(const struct tool *tool, const struct state *start);
void put_region(FILE *world, uint64_t begin, const uint8_t *bytes, size_t size, const char *permissions);
void put_zeros(FILE *world, uint64_t begin, uint64_t size);
void put_question(FILE *world, const uint8_t *bytes, size_t size, const uint64_t *address);
void put_given(FILE *world, const char *name, uint64_t number);
void put_written(FILE *world, uint64_t address, const uint8_t *bytes, size_t size);
void end_world(FILE *world);

/* Reads what `step` printed, or ends the program. */
void read_ending(const char *printed, struct ending *end);
#endif
