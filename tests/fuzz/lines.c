/* vaknuhol-lines, on any file. */
#define main lines
#include "main.c"
#undef main

#include <search.h>

#include "harness.h"
#include "instances.c"
#include "tables.c"

#include "names.c"
#define count row_count
#define room row_room
#define by_address row_by_address
#include "rows.c"
#undef count
#undef room

static Elf *elf;
static Dwarf *dwarf;
static int file;

/* As `main` does, but that what was opened can be closed. */
void try_input(const uint8_t *bytes, size_t size, const char *path) {
    (void)bytes, (void)size;
    elf_version(EV_CURRENT);
    file = open(path, O_RDONLY | O_CLOEXEC);
    elf = elf_begin(file, ELF_C_READ, NULL);
    dwarf = elf && has_section(elf, ".debug_info") ? dwarf_begin_elf(elf, DWARF_C_READ, NULL) : NULL;
    if (dwarf) {
        read_units(dwarf, (char *)path);
        add_rows();
    }
    FILE *out = fopen("/dev/null", "w");
    write_tables(out);
    fclose(out);
}

static void nothing(void *key) { (void)key; }

void forget_input(void) {
    dwarf_end(dwarf), dwarf = NULL;
    elf_end(elf), elf = NULL;
    close(file);
    tdestroy(seen, nothing), seen = NULL;
    tdestroy(texts, nothing), texts = NULL;
    rows = NULL, row_count = row_room = 0;
    memset(tables, 0, sizeof tables);
}
