#include "elf_file.h"

#include <string.h>

#include "refusing.h"
#include "settled.h"

/* e9tool puts new code below this address, and the bookkeeping takes eleven bytes for a byte of text. */
enum { HIGHEST = 0x7FFF0000, MOST_TEXT = 64 << 20 };

static void take_segment(struct program *program, const Elf64_Phdr *it, const char *path) {
    if (it->p_memsz < it->p_filesz || it->p_vaddr > HIGHEST || it->p_memsz > HIGHEST - it->p_vaddr)
        refuse("%s has a segment that reaches above %x", path, HIGHEST);
    if (!is_in_file(&program->elf.file, it->p_offset, it->p_filesz))
        refuse("%s is cut off: a segment is past its end", path);
    if (program->segment_count == MOST_PARTS)
        refuse("%s has more than %d segments", path, MOST_PARTS);
    for (int at = 0; at < program->segment_count; at++)
        if (it->p_vaddr < (uint64_t)program->segments[at].addr + program->segments[at].in_memory && program->segments[at].addr < it->p_vaddr + it->p_memsz)
            refuse("%s has segments that overlap at %x", path, (unsigned)it->p_vaddr);
    program->segments[program->segment_count++] =
        (struct segment){(uint32_t)it->p_vaddr, (uint32_t)it->p_filesz, (uint32_t)it->p_memsz, it->p_flags, program->elf.file.bytes + it->p_offset};
}

static void take_segments(struct program *program, const char *path) {
    if (!find_tables(&program->elf))
        refuse("%s has no whole table of program headers", path);
    for (const Elf64_Phdr *it = program->elf.headers; it < program->elf.headers + program->elf.header_count; it++) {
        if (it->p_type == PT_DYNAMIC || it->p_type == PT_INTERP)
            refuse("%s is dynamic: link with gcc -static -no-pie", path);
        if (it->p_type == PT_LOAD && it->p_memsz)
            take_segment(program, it, path);
        if (it->p_type == PT_GNU_EH_FRAME)
            program->frame_header = it->p_vaddr;
    }
}

static void add_text(struct program *program, uint64_t lo, uint64_t length, const char *path) {
    const struct segment *holder = segment_of(program, lo);
    if (!length || !holder || lo - holder->addr >= holder->in_file)
        return;
    if (program->text_count == MOST_PARTS)
        refuse("%s has more than %d executed sections", path, MOST_PARTS);
    uint64_t most = (uint64_t)holder->addr + holder->in_file - lo;
    int at = program->text_count;
    while (at > 0 && program->text[at - 1].lo > lo) {
        program->text[at] = program->text[at - 1];
        at--;
    }
    program->text[at] = (struct range){(uint32_t)lo, (uint32_t)(lo + (length < most ? length : most))};
    program->text_count++;
}

static bool is_executed(const struct program *program, uint64_t addr) {
    const struct segment *holder = segment_of(program, addr);
    return holder && holder->flags & PF_X;
}

/* What overlaps becomes one part, so that the parts ascend and none has a byte of another. */
static void join_text(struct program *program) {
    int last = 0;
    for (int at = 1; at < program->text_count; at++) {
        struct range *part = program->text + last, next = program->text[at];
        if (next.lo >= part->hi)
            program->text[++last] = next;
        else if (next.hi > part->hi)
            part->hi = next.hi;
    }
    program->text_count = last + 1;
    program->lo = program->text[0].lo;
    program->hi = program->text[last].hi;
}

/* Sections that are executed and loaded as such, or segments where there are none; and the stub of a settled file. */
static void take_text(struct program *program, const char *path) {
    for (int at = 0; at < program->elf.section_count; at++) {
        const Elf64_Shdr *it = program->elf.sections + at;
        if (it->sh_flags & SHF_EXECINSTR && it->sh_type == SHT_PROGBITS && is_executed(program, it->sh_addr))
            add_text(program, it->sh_addr, it->sh_size, path);
    }
    for (int at = 0; !program->text_count && at < program->segment_count; at++)
        if (program->segments[at].flags & PF_X && program->segments[at].addr >= program->base)
            add_text(program, program->segments[at].addr, program->segments[at].in_file, path);
    if (program->base)
        add_text(program, program->entry, program->base - program->entry, path);
    if (!program->text_count)
        refuse("%s has no text: no segment of it is executed", path);
    join_text(program);
    if (program->hi - program->lo > MOST_TEXT)
        refuse("%s has text over more than %d bytes of addresses", path, MOST_TEXT);
}

void open_program(struct program *program, const char *path) {
    memset(program, 0, sizeof *program);
    if (!map_file(&program->elf.file, path, sizeof(Elf64_Ehdr)))
        refuse(errno ? "%s: %m" : "%s is no ELF file", path);
    const Elf64_Ehdr *head = head_of(&program->elf);
    if (memcmp(head->e_ident, ELFMAG "\2\1", 6) || head->e_machine != EM_X86_64)
        refuse("%s is no ELF-64 file for x86-64", path);
    if (head->e_type != ET_EXEC)
        refuse("%s is position independent: e9tool settle makes a program at fixed addresses of it", path);
    program->entry = head->e_entry;
    take_segments(program, path);
    take_settled(program);
    take_text(program, path);
}

bool in_text(const struct program *program, uint64_t addr) {
    if (addr < program->lo || addr >= program->hi)
        return false;
    for (int at = 0; at < program->text_count; at++)
        if (program->text[at].lo <= addr && addr < program->text[at].hi)
            return true;
    return false;
}

uint32_t text_end(const struct program *program, uint32_t addr) {
    for (int at = 0; at < program->text_count; at++)
        if (program->text[at].lo <= addr && addr < program->text[at].hi)
            return program->text[at].hi;
    return addr;
}

const struct segment *segment_of(const struct program *program, uint64_t addr) {
    for (int at = 0; at < program->segment_count; at++) {
        const struct segment *it = program->segments + at;
        if (addr >= it->addr && addr - it->addr < it->in_memory)
            return it;
    }
    return NULL;
}

const uint8_t *bytes_at(const struct program *program, uint64_t addr, uint32_t count) {
    const struct segment *it = segment_of(program, addr);
    return it && addr - it->addr + count <= it->in_file ? it->bytes + (addr - it->addr) : NULL;
}

const uint8_t *section_bytes(const struct program *program, const Elf64_Shdr *section) {
    if (section->sh_type == SHT_NOBITS || !is_in_file(&program->elf.file, section->sh_offset, section->sh_size))
        return NULL;
    return program->elf.file.bytes + section->sh_offset;
}

const char *string_in(const struct program *program, const Elf64_Shdr *table, uint64_t offset) {
    const char *bytes = (const char *)section_bytes(program, table);
    if (!bytes || offset >= table->sh_size || !memchr(bytes + offset, 0, table->sh_size - offset))
        return "";
    return bytes + offset;
}

const char *section_name(const struct program *program, const Elf64_Shdr *section) {
    int names = head_of(&program->elf)->e_shstrndx;
    return names < program->elf.section_count ? string_in(program, program->elf.sections + names, section->sh_name) : "";
}
