/* Lets the processor tell how many bytes it takes for a sequence. */
#ifndef SIFT_H
#define SIFT_H
#include <stddef.h>

#include "sequences.h"

/* Fills in the verdict and the length of each sequence; they lie in memory that a child shares with us (shared_room).
   A sequence ends at a page that isn't there and moves up byte by byte: it has as many bytes as it takes until the
   processor no longer faults for the next one. Each is run with all registers 0 and the trap flag set, in a child whose
   system calls from there fail. */
void sift_all(struct sequence *all, size_t count);

/* Zeroed memory that children share, or the program ends. */
void *shared_room(size_t size);
#endif
