/* The line table of a unit. */
#ifndef ROWS_H
#define ROWS_H
#include <elfutils/libdw.h>
#include <stdbool.h>

/* Reads the rows of a unit, of code from an address on; the linker moves what it leaves out below it. False where they can't be read. */
bool read_rows(Dwarf_Die *unit, const char *folder, Dwarf_Addr lowest);

/* Adds the rows of all units to their tables, by addresses. */
void add_rows(void);
#endif
