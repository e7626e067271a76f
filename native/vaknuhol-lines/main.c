/* vaknuhol-lines PROGRAM: the debugging information that tells lines and functions of a program, as tables (tables.h) on standard
   output. A program without it has empty tables. Read by libdw of elfutils: DWARF 2 to 5, compressed sections, split units.  */
#define _GNU_SOURCE
#include "instances.h"
#include "refusing.h"
#include "rows.h"
#include "tables.h"
#include <dwarf.h>
#include <fcntl.h>
#include <gelf.h>
#include <stdbool.h>
#include <string.h>
#include <unistd.h>

const struct refusal refusal = {2, "out of memory"};

/* Ends the program by a line that begins with what went wrong, in place of its name. */
static _Noreturn void fail(char *what, const char *why) {
    program_invocation_short_name = what;
    refuse("%s", why);
}

/* The lowest address at which a segment has code, behind the header of a file that is loaded at 0. */
static Dwarf_Addr lowest_code(Elf *elf) {
    Dwarf_Addr lowest = UINT64_MAX;
    size_t count = 0;
    GElf_Phdr header;
    if (elf_getphdrnum(elf, &count))
        return 0;
    for (size_t i = 0; i < count; i++)
        if (gelf_getphdr(elf, (int)i, &header) && header.p_type == PT_LOAD && header.p_flags & PF_X && header.p_vaddr < lowest)
            lowest = header.p_vaddr;
    return lowest == UINT64_MAX ? 0 : lowest ? lowest : sizeof(Elf64_Ehdr);
}

static const char *folder_of(Dwarf_Die *unit) {
    Dwarf_Attribute attribute;
    const char *folder = dwarf_attr(unit, DW_AT_comp_dir, &attribute) ? dwarf_formstring(&attribute) : NULL;
    return folder ? folder : "";
}

static void read_units(Dwarf *dwarf, char *path) {
    Dwarf_Addr lowest = lowest_code(dwarf_getelf(dwarf));
    Dwarf_CU *unit = NULL;
    Dwarf_Die die, split;
    uint8_t kind;
    int found;
    while ((found = dwarf_get_units(dwarf, unit, &unit, NULL, &kind, &die, &split)) == 0) {
        if (kind != DW_UT_compile && kind != DW_UT_skeleton && kind != DW_UT_partial)
            continue;
        if (!read_rows(&die, folder_of(&die), lowest))
            fail(path, dwarf_errmsg(-1));
        add_instances(kind == DW_UT_skeleton && dwarf_tag(&split) != DW_TAG_invalid ? &split : &die, folder_of(&die), lowest);
    }
    if (found < 0)
        fail(path, dwarf_errmsg(-1));
}

/* Whether a section of the file is named so. */
static bool has_section(Elf *elf, const char *wanted) {
    size_t names;
    Elf_Scn *section = NULL;
    GElf_Shdr header;
    if (elf_getshdrstrndx(elf, &names))
        return false;
    while ((section = elf_nextscn(elf, section)) != NULL) {
        const char *name = gelf_getshdr(section, &header) ? elf_strptr(elf, names, header.sh_name) : NULL;
        if (name && header.sh_type != SHT_NOBITS && strcmp(name, wanted) == 0)
            return true;
    }
    return false;
}

int main(int count, char **words) {
    if (count != 2) {
        fputs("usage: vaknuhol-lines PROGRAM\n", stderr);
        return 2;
    }
    int file = open(words[1], O_RDONLY | O_CLOEXEC);
    if (file < 0)
        fail(words[1], strerror(errno));
    elf_version(EV_CURRENT);
    Elf *elf = elf_begin(file, ELF_C_READ_MMAP, NULL);
    if (!elf)
        fail(words[1], elf_errmsg(-1));
    if (has_section(elf, ".debug_info") || has_section(elf, ".zdebug_info")) {
        Dwarf *dwarf = dwarf_begin_elf(elf, DWARF_C_READ, NULL);
        if (!dwarf)
            fail(words[1], dwarf_errmsg(-1));
        read_units(dwarf, words[1]);
        add_rows();
        dwarf_end(dwarf);
    }
    elf_end(elf);
    close(file);
    if (!write_tables(stdout))
        fail("standard output", strerror(errno));
    return 0;
}
