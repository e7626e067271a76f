/* The functions of a unit, and the calls that were inlined in them. */
#ifndef INSTANCES_H
#define INSTANCES_H
#include <elfutils/libdw.h>

/* Adds those that have code from an address on to their tables. */
void add_instances(Dwarf_Die *unit, const char *folder, Dwarf_Addr lowest);
#endif
