/* vaknuhol-list, on any file. */
#define main lister
#include "main.c"
#undef main

#include "harness.h"
#include "jump_tables.c"

void try_input(const uint8_t *bytes, size_t size, const char *path) {
    char *words[] = {"vaknuhol-list", (char *)path, "/dev/null", "/dev/null"};
    (void)bytes, (void)size;
    lister(sizeof words / sizeof *words, words);
}

void forget_input(void) {
    tables = NULL, table_count = table_capacity = judged = 0;
    named = begun = NULL;
}
