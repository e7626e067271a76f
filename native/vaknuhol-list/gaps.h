/* What no evidence has led to: the bytes between the listed instructions. */
#ifndef GAPS_H
#define GAPS_H
#include "evidence.h"

struct gaps {
    struct range *doubtful; /* what may be code, and that nothing supports */
    size_t count, capacity;
    uint32_t zeros, traps; /* bytes that fill room: 00, and CC */
};

/* Takes from the queues what is strongest, up to a level, until none of them has a start. */
void drain(struct evidence *it, int weakest);

/* Lists what reads as code throughout in a function of known extent, from a start to the next one or to the end. */
void sweep_extents(struct evidence *it);

/* Lists what reads as code throughout between two starts, or leads to one; the rest is doubtful. */
void sweep_gaps(struct evidence *it, struct gaps *gaps);
#endif
