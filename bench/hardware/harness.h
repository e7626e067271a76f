/* The guest's own code: what it loads, keeps and compares, in which places. */
#ifndef HARNESS_H
#define HARNESS_H
#include <stddef.h>
#include <stdint.h>

#include "guest.h"

enum { JUMP = 5, POPPED = 17 };

/* A trial in the table. The first words are popped in order: the flags, r15 to rax without rsp, rsp. */
struct entry {
    uint64_t flags, before[POPPED - 1];
    uint64_t rip, regs_after[16], flags_after, landed;
    struct place places[PLACES];
    uint64_t unused[4];
};

/* The guest's variables at AREA. Kept flags have OF in bit 0 and what LAHF gives in bits 8 to 15. */
struct variables {
    uint64_t current, ret;
    /* Of the process that runs it natively: its stack, and where the state of XSAVE comes from and goes to, or 0. */
    uint64_t own_rsp, state_in, state_out;
    uint32_t state_mask, mxcsr;
    uint64_t count, end, target, landed, scratch;
    uint64_t regs[16], flags;
    uint64_t listed[LISTED];
};

uint64_t *before_of(struct entry *entry, int reg);
uint64_t to_kept(uint64_t flags);
uint64_t from_kept(uint64_t kept);

/* Lays down the code: first what loads a trial, then what keeps its outcome and leaves through `ret`, then what
 * compares. */
void lay_harness(uint8_t *code, uint8_t *landings);

/* A landing tells its number, its address by LANDING, and keeps the outcome. */
void lay_landing(uint8_t *at);
void lay_jump_to_save(uint8_t *at);

/* Where the comparison begins, and the last instruction, at which a run ends. */
const uint8_t *check_at(void);
const uint8_t *finish_at(void);
#endif
