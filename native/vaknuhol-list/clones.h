/* Calls of clone that make threads, or processes that run at once in one memory. */
#ifndef CLONES_H
#define CLONES_H
#include "evidence.h"

/* The instructions that load or push what such a call has as flags; how many there are. */
size_t find_clones(const struct evidence *it, struct range **found);
#endif
