/* What the symbol table and the sections tell: functions with their names and extents, objects in text, arrays of functions. */
#ifndef SYMBOLS_H
#define SYMBOLS_H
#include "evidence.h"

struct name {
    uint32_t addr;
    const char *text;
};

/* Where names stand, ascending: the best symbol of each address, or the section that begins there. */
struct names {
    struct name *all;
    size_t count, capacity;
};

void read_symbols(struct evidence *it, struct names *names);

/* The entry point, .init, .fini, and the arrays of functions. */
void propose_entries(struct evidence *it);
#endif
