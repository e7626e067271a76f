#include "settled.h"

#include <string.h>
#include <sys/mman.h>

#include "refusing.h"

enum { STUB = 89, FRONT_PAGE = 4096, BITS = 63, TAGS = DT_RELR + 1 };

/* The length of the front; 0 of a file that isn't settled. */
static uint64_t front_length(const struct elf *elf) {
    const Elf64_Ehdr *head = head_of(elf);
    uint64_t used = sizeof *head + sizeof(Elf64_Phdr) * (uint64_t)elf->header_count + STUB;
    uint64_t front = (used + FRONT_PAGE - 1) / FRONT_PAGE * FRONT_PAGE;
    const Elf64_Phdr *first = elf->headers;
    if (elf->header_count < 2 || head->e_phoff != sizeof *head || !is_in_file(&elf->file, front, sizeof *head))
        return 0;
    if (first->p_type != PT_LOAD || first->p_offset || first->p_filesz != used || first->p_vaddr + front != first->p_paddr)
        return 0;
    const Elf64_Ehdr *own = (const void *)(elf->file.bytes + front);
    return memcmp(own->e_ident, ELFMAG, SELFMAG) || own->e_type != ET_DYN || own->e_phnum + 1 != elf->header_count ? 0 : front;
}

static void move_symbols(const struct program *program, const Elf64_Shdr *table) {
    Elf64_Sym *symbols = (void *)section_bytes(program, table);
    if (!symbols || table->sh_offset % 8)
        return;
    for (uint64_t at = 0; at < table->sh_size / sizeof *symbols; at++)
        if (symbols[at].st_shndx != SHN_UNDEF && symbols[at].st_shndx < SHN_LORESERVE)
            symbols[at].st_value += program->base;
}

static void move_sections(const struct program *program) {
    Elf64_Shdr *sections = (void *)program->elf.sections;
    for (int at = 0; at < program->elf.section_count; at++) {
        if (sections[at].sh_flags & SHF_ALLOC)
            sections[at].sh_addr += program->base;
        if (sections[at].sh_type == SHT_SYMTAB)
            move_symbols(program, sections + at);
    }
}

/* Puts a word where the program is loaded, or adds it to what is there. */
static void put_word(const struct program *program, uint64_t addr, uint64_t value, int adds) {
    uint8_t *place = (uint8_t *)bytes_at(program, addr, sizeof value);
    uint64_t held = 0;
    if (!place)
        return;
    if (adds)
        memcpy(&held, place, sizeof held);
    value += held;
    memcpy(place, &value, sizeof value);
}

static const uint8_t *table_at(const struct program *program, uint64_t addr, uint64_t size) {
    return size <= UINT32_MAX ? bytes_at(program, program->base + addr, (uint32_t)size) : NULL;
}

static void apply_table(const struct program *program, uint64_t addr, uint64_t size) {
    const uint8_t *bytes = table_at(program, addr, size);
    Elf64_Rela one;
    for (uint64_t at = 0; bytes && at + sizeof one <= size; at += sizeof one) {
        memcpy(&one, bytes + at, sizeof one);
        if (ELF64_R_TYPE(one.r_info) == R_X86_64_RELATIVE || ELF64_R_TYPE(one.r_info) == R_X86_64_IRELATIVE)
            put_word(program, program->base + one.r_offset, program->base + (uint64_t)one.r_addend, 0);
    }
}

/* DT_RELR: an address, whose word is moved, or bits for the 63 words behind the last that was told of. */
static void apply_packed(const struct program *program, uint64_t addr, uint64_t size) {
    const uint8_t *bytes = table_at(program, addr, size);
    uint64_t word, next = 0;
    for (uint64_t at = 0; bytes && at + sizeof word <= size; at += sizeof word) {
        memcpy(&word, bytes + at, sizeof word);
        if (word & 1) {
            for (int bit = 0; bit < BITS; bit++)
                if (word >> (bit + 1) & 1)
                    put_word(program, next + sizeof word * (uint64_t)bit, program->base, 1);
            next += sizeof word * BITS;
        } else {
            put_word(program, program->base + word, program->base, 1);
            next = program->base + word + sizeof word;
        }
    }
}

static void apply_relocations(const struct program *program) {
    uint64_t tags[TAGS] = {0}, pair[2];
    for (const Elf64_Phdr *it = program->elf.headers; it < program->elf.headers + program->elf.header_count; it++)
        for (uint64_t at = 0; it->p_type == PT_DYNAMIC && at + sizeof pair <= it->p_filesz; at += sizeof pair) {
            if (!is_in_file(&program->elf.file, it->p_offset + at, sizeof pair))
                break;
            memcpy(pair, program->elf.file.bytes + it->p_offset + at, sizeof pair);
            if (pair[0] == DT_NULL)
                break;
            if (pair[0] < TAGS)
                tags[pair[0]] = pair[1];
        }
    apply_table(program, tags[DT_RELA], tags[DT_RELASZ]);
    apply_table(program, tags[DT_JMPREL], tags[DT_PLTRELSZ]);
    apply_packed(program, tags[DT_RELR], tags[DT_RELRSZ]);
}

void take_settled(struct program *program) {
    struct elf *elf = &program->elf;
    uint64_t front = front_length(elf);
    if (!front)
        return;
    program->base = (uint32_t)elf->headers->p_paddr;
    if (mprotect((void *)elf->file.bytes, elf->file.size, PROT_READ | PROT_WRITE)) /* a private mapping: the file stays as it is */
        refuse_memory(elf->file.size);
    *elf = (struct elf){{elf->file.bytes + front, elf->file.size - front}, NULL, NULL, 0, 0};
    if (!find_tables(elf))
        elf->header_count = 0;
    move_sections(program);
    apply_relocations(program);
}
