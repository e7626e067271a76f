/* What the reader of the script has in memory, and the writes that an answer has to give it. */
#ifndef SHADOW_H
#define SHADOW_H
#include "asking.h"

#include <stdbool.h>
#include <stdio.h>

/* Addresses of the process: readable ones as /proc/PID/maps has them, or the ones that the script has to hold. */
struct range {
    uint64_t lo, hi;
    bool executable, anonymous;
};

/* The pages of the segments of the program's file. */
void read_segments(const char *path);

bool is_own(uint64_t at);

/* Marks the readable ranges of the process that the run may change or that lie beside its file as seen. */
void see_maps(void);

/* The end of the readable range around an address; the address itself where there is none. */
uint64_t end_of_range(uint64_t at);

/* The ranges that were seen, which the script has to hold, ascending; how many there are. */
int seen_ranges(const struct range **ranges);

/* Takes all readable memory over into the shadow; with a file, what differs is written as the answer's. */
void take_all(FILE *entries);

/* Takes the parts of the spans over, page by page; with a file, what differs is written. */
void take_spans(const struct span *spans, int count, FILE *entries);
#endif
