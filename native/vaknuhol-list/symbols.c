#include "symbols.h"

#include <stdlib.h>
#include <string.h>

#include "refusing.h"

/* A symbol that can name an address; `rank` is lower for what tells more. */
struct candidate {
    uint32_t addr;
    int rank;
    uint64_t length;
    const char *text;
};

struct candidates {
    struct candidate *all;
    size_t count, capacity;
};

static void add_candidate(struct candidates *them, uint64_t addr, int rank, uint64_t length, const char *text) {
    them->all = room_for_one(them->all, them->count, &them->capacity, sizeof *them->all);
    them->all[them->count++] = (struct candidate){(uint32_t)addr, rank, length, text};
}

/* Functions before objects, these before others; then what has a length, the longer one first; then global ones; then by name. */
static int compare(const void *first, const void *second) {
    const struct candidate *a = first, *b = second;
    if (a->addr != b->addr)
        return a->addr < b->addr ? -1 : 1;
    if (a->rank / 2 != b->rank / 2)
        return a->rank - b->rank;
    if (a->length != b->length)
        return a->length > b->length ? -1 : 1;
    if (a->rank != b->rank)
        return a->rank - b->rank;
    if ((a->text[0] == '.') != (b->text[0] == '.'))
        return a->text[0] == '.' ? 1 : -1;
    return strcmp(a->text, b->text);
}

/* Labels whose addresses C code takes are objects of one byte for tcc; tables of one byte have no use. */
static bool is_label(const Elf64_Sym *symbol) { return ELF64_ST_TYPE(symbol->st_info) == STT_OBJECT && symbol->st_size == 1; }

static void take_symbol(struct evidence *it, const Elf64_Sym *symbol, const char *text, struct candidates *found) {
    int type = ELF64_ST_TYPE(symbol->st_info);
    bool is_function = type == STT_FUNC || type == STT_GNU_IFUNC;
    uint64_t addr = symbol->st_value;
    if (is_function) {
        propose(it, addr, ENTRY);
        add_extent(it, addr, symbol->st_size);
    }
    if (type == STT_NOTYPE || is_label(symbol))
        propose(it, addr, NUMBER);
    if (is_function || type == STT_NOTYPE)
        it->names[addr - it->program->lo] |= NAMED;
    if (type == STT_OBJECT && !is_label(symbol))
        add_data(it, addr, symbol->st_size);
    if (text[0] && type != STT_SECTION && type != STT_FILE && !is_label(symbol)) {
        bool is_local = ELF64_ST_BIND(symbol->st_info) != STB_GLOBAL;
        add_candidate(found, addr, (type == STT_FUNC ? 0 : type == STT_OBJECT ? 2 : 4) + is_local, symbol->st_size, text);
    }
}

static void take_table(struct evidence *it, const Elf64_Shdr *table, struct candidates *found) {
    const struct program *program = it->program;
    const Elf64_Sym *symbols = (const void *)section_bytes(program, table);
    if (!symbols || table->sh_offset % 8 || table->sh_link >= (uint32_t)program->elf.section_count)
        return;
    for (uint64_t at = 0; at < table->sh_size / sizeof *symbols; at++) {
        const Elf64_Sym *symbol = symbols + at;
        if (symbol->st_shndx == SHN_UNDEF || symbol->st_shndx >= program->elf.section_count || !in_text(program, symbol->st_value))
            continue;
        take_symbol(it, symbol, string_in(program, program->elf.sections + table->sh_link, symbol->st_name), found);
    }
}

void read_symbols(struct evidence *it, struct names *names) {
    const struct program *program = it->program;
    struct candidates found = {NULL, 0, 0};
    for (int at = 0; at < program->elf.section_count; at++) {
        const Elf64_Shdr *section = program->elf.sections + at;
        if (section->sh_type == SHT_SYMTAB)
            take_table(it, section, &found);
        if (section->sh_flags & SHF_EXECINSTR && in_text(program, section->sh_addr)) {
            it->names[section->sh_addr - program->lo] |= NAMED;
            const char *text = section_name(program, section); /* with a dot, or it would be taken for a function's */
            add_candidate(&found, section->sh_addr, 8, 0, text[0] == '.' ? text : ".section");
        }
    }
    if (found.count)
        qsort(found.all, found.count, sizeof *found.all, compare);
    for (size_t at = 0; at < found.count; at++) {
        if (names->count && names->all[names->count - 1].addr == found.all[at].addr)
            continue;
        names->all = room_for_one(names->all, names->count, &names->capacity, sizeof *names->all);
        names->all[names->count++] = (struct name){found.all[at].addr, found.all[at].text};
    }
    free(found.all);
}

static void propose_array(struct evidence *it, const Elf64_Shdr *section) {
    const uint8_t *bytes = section_bytes(it->program, section);
    for (uint64_t at = 0; bytes && at + 8 <= section->sh_size; at += 8) {
        uint64_t word;
        memcpy(&word, bytes + at, 8);
        propose(it, word, ENTRY);
    }
}

void propose_entries(struct evidence *it) {
    const struct program *program = it->program;
    for (int at = 0; at < program->elf.section_count; at++) {
        const Elf64_Shdr *section = program->elf.sections + at;
        const char *name = section_name(program, section);
        if (section->sh_type == SHT_INIT_ARRAY || section->sh_type == SHT_FINI_ARRAY || section->sh_type == SHT_PREINIT_ARRAY)
            propose_array(it, section);
        if (!strcmp(name, ".init") || !strcmp(name, ".fini"))
            propose(it, section->sh_addr, ENTRY);
    }
    propose(it, program->entry, ENTRY);
}
