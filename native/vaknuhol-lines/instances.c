/* The tree of functions and inlined calls: an instance is a DW_TAG_subprogram or a DW_TAG_inlined_subroutine with code. */
#include "instances.h"
#include "names.h"
#include "refusing.h"
#include "tables.h"
#include <dwarf.h>
#include <search.h>
#include <stdbool.h>

enum { DEEPEST = 1024 };

struct unit {
    Dwarf_Files *files;
    size_t count;
    const char *folder;
    Dwarf_Addr lowest;
};

/* A number that the entry has itself, or where `origin` is set also from what it is an instance of; 0 where there is none. */
static uint32_t number_of(Dwarf_Die *die, unsigned name, bool origin) {
    Dwarf_Attribute attribute;
    Dwarf_Word word;
    Dwarf_Attribute *found = origin ? dwarf_attr_integrate(die, name, &attribute) : dwarf_attr(die, name, &attribute);
    return found && !dwarf_formudata(found, &word) ? (uint32_t)word : 0;
}

static const char *string_of(Dwarf_Die *die, unsigned name) {
    Dwarf_Attribute attribute;
    return dwarf_attr_integrate(die, name, &attribute) ? dwarf_formstring(&attribute) : NULL;
}

static bool has(Dwarf_Die *die, unsigned name) {
    Dwarf_Attribute attribute;
    return dwarf_attr_integrate(die, name, &attribute) != NULL;
}

static uint32_t file_of(const struct unit *unit, uint32_t number) {
    const char *name = number < unit->count ? dwarf_filesrc(unit->files, number, NULL, NULL) : NULL;
    return file_number(unit->folder, name ? name : "");
}

/* Where the range at *at of an entry's ranges is; false behind the last. Those of functions that the linker left out are passed over. */
static bool range_of(Dwarf_Die *die, const struct unit *unit, ptrdiff_t *at, Dwarf_Addr *low, Dwarf_Addr *high) {
    Dwarf_Addr base;
    while ((*at = dwarf_ranges(die, *at, &base, low, high)) > 0)
        if (*low >= unit->lowest && *low < *high)
            return true;
    return false;
}

static uint32_t add_ranges(Dwarf_Die *die, const struct unit *unit) {
    Dwarf_Addr low, high;
    uint32_t count = 0;
    for (ptrdiff_t at = 0; range_of(die, unit, &at, &low, &high); count++) {
        add(RANGE_LOW, low, 8);
        add(RANGE_HIGH, high, 8);
    }
    return count;
}

/* DW_AT_entry_pc is an address, or a distance from the first one (DWARF 5, section 2.18). */
static Dwarf_Addr entry_of(Dwarf_Die *die, Dwarf_Addr first) {
    Dwarf_Attribute attribute;
    Dwarf_Addr entry;
    Dwarf_Word distance;
    if (!dwarf_attr(die, DW_AT_entry_pc, &attribute))
        return dwarf_tag(die) == DW_TAG_subprogram ? first : 0;
    if (!dwarf_formaddr(&attribute, &entry))
        return entry;
    return dwarf_formudata(&attribute, &distance) ? 0 : first + distance;
}

static int by_address(const void *left, const void *right) {
    uintptr_t a = (uintptr_t)left, b = (uintptr_t)right;
    return (a > b) - (a < b);
}

static void *seen; /* a tree whose keys are the addresses themselves */

/* Whether a function with code there was seen before: of several units' copies the linker keeps one, and sends all of them there. */
static bool was_seen(Dwarf_Addr first) {
    const void *key = (const void *)(uintptr_t)first;
    if (tfind(key, &seen, by_address))
        return true;
    if (!tsearch(key, &seen, by_address))
        refuse_memory(sizeof key);
    return false;
}

enum standing { ABSENT, REPEATED, PRESENT };

/* Adds an instance, whose number is then `*number`: a function with code, or an inlined call that has code or an entry. One that
   is absent has no code of its own, but calls that were inlined in it may have. */
static enum standing add_instance(Dwarf_Die *die, uint32_t parent, const struct unit *unit, uint32_t *number) {
    Dwarf_Addr first = 0, high;
    ptrdiff_t at = 0;
    bool inlined = dwarf_tag(die) == DW_TAG_inlined_subroutine, has_code = range_of(die, unit, &at, &first, &high);
    if (!has_code && dwarf_lowpc(die, &first))
        first = 0;
    Dwarf_Addr entry = entry_of(die, first);
    if (!has_code && (!inlined || entry < unit->lowest))
        return ABSENT;
    if (!inlined && was_seen(first))
        return REPEATED;
    const char *name = string_of(die, DW_AT_linkage_name);
    if (!name)
        name = string_of(die, DW_AT_MIPS_linkage_name);
    if (!name)
        name = string_of(die, DW_AT_name);
    add(INSTANCE_PARENT, parent, 4);
    add(INSTANCE_NAME, text_number(name ? name : ""), 4);
    add(INSTANCE_FILE, file_of(unit, number_of(die, DW_AT_decl_file, true)), 4);
    add(INSTANCE_LINE, number_of(die, DW_AT_decl_line, true), 4);
    add(INSTANCE_CALL_FILE, inlined ? file_of(unit, number_of(die, DW_AT_call_file, false)) : 0, 4);
    add(INSTANCE_CALL_LINE, inlined ? number_of(die, DW_AT_call_line, false) : 0, 4);
    add(INSTANCE_ENTRY, entry, 8);
    add(INSTANCE_VIEW, number_of(die, DW_AT_GNU_entry_view, false), 4);
    add(INSTANCE_KIND, (inlined ? INLINED : 0) | (has(die, DW_AT_artificial) ? ARTIFICIAL : 0) | (has(die, DW_AT_type) ? RETURNS_VALUE : 0), 1);
    add(INSTANCE_RANGES, add_ranges(die, unit), 4);
    *number = (uint32_t)(length_of(INSTANCE_RANGES) / 4);
    return PRESENT;
}

static bool may_hold_instances(int tag) {
    switch (tag) {
    case DW_TAG_subprogram:
    case DW_TAG_inlined_subroutine:
    case DW_TAG_lexical_block:
    case DW_TAG_namespace:
    case DW_TAG_module:
    case DW_TAG_structure_type:
    case DW_TAG_class_type:
    case DW_TAG_union_type: return true;
    default: return false;
    }
}

static void walk(Dwarf_Die *first, uint32_t parent, const struct unit *unit, int depth) {
    Dwarf_Die die = *first, child;
    do {
        int tag = dwarf_tag(&die);
        uint32_t here = parent;
        bool is_instance = tag == DW_TAG_subprogram || tag == DW_TAG_inlined_subroutine;
        if (is_instance && add_instance(&die, parent, unit, &here) == REPEATED)
            continue;
        if (depth < DEEPEST && may_hold_instances(tag) && dwarf_child(&die, &child) == 0)
            walk(&child, here, unit, depth + 1);
    } while (dwarf_siblingof(&die, &die) == 0);
}

void add_instances(Dwarf_Die *die, const char *folder, Dwarf_Addr lowest) {
    struct unit unit = {.folder = folder, .lowest = lowest};
    Dwarf_Die child;
    if (dwarf_getsrcfiles(die, &unit.files, &unit.count))
        unit.count = 0;
    if (dwarf_child(die, &child) == 0)
        walk(&child, 0, &unit, 0);
}
