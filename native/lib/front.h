/* What a spelling has up to its opcode, by the tables of docs/reference/formats.md: prefixes, and the map of the opcode; and what opcodes do
   to a run. */
#ifndef FRONT_H
#define FRONT_H
#include <stdbool.h>
#include <stdint.h>

/* The parts of a spelling up to its opcode. */
struct front {
    int at;            /* after the opcode */
    int rex;           /* the effective REX byte, or 0 */
    bool operand_size; /* 66 stands there */
    bool address_size; /* 67 */
    bool lock, repne, repe, fs, gs;
    bool has_rex; /* any of 40 to 4F, effective or not */
    int map;      /* 1: one-byte opcodes; 2: after 0F; 3: 0F 38; 4: 0F 3A; 11 to 13: the maps of VEX */
    uint8_t opcode;
};

/* Reads it; whether there is an opcode, and its prefixes may stand there. */
bool take_front(struct front *it, const uint8_t *bytes, int count);

static inline bool is_within(int low, int high, int opcode) { return low <= opcode && opcode <= high; }

bool is_among(int opcode, const char *opcodes, int count);

/* Branches by a displacement, near returns, and indirect near calls and jumps, by the register field of ModRM. */
bool is_near_branch(const struct front *it, int reg);

/* Whether an opcode ends a run, whatever its prefixes (docs/reference/formats.md, Classes of instructions). */
bool ends_run(const struct front *it, int reg);
#endif
