/* A static ELF-64 file: what it loads, and which of it is text. All offsets of the file are checked before they are followed. */
#ifndef ELF_FILE_H
#define ELF_FILE_H
#include <stdbool.h>

#include "file.h"

enum { MOST_PARTS = 64 };

struct range {
    uint32_t lo, hi; /* from lo on and below hi */
};

struct segment {
    uint32_t addr, in_file, in_memory, flags;
    const uint8_t *bytes;
};

struct program {
    struct elf elf;
    struct segment segments[MOST_PARTS];
    int segment_count;
    struct range text[MOST_PARTS]; /* ascending; sections that are executed, or segments where there are no sections */
    int text_count;
    uint32_t lo, hi;              /* around all text */
    uint32_t base;                /* of a settled file (settled.h), else 0: calls of what isn't there lead there */
    uint64_t entry, frame_header; /* frame_header: the address of .eh_frame_hdr, or 0 */
};

/* Reads a program; another file is refused. */
void open_program(struct program *program, const char *path);

bool in_text(const struct program *program, uint64_t addr);

/* The end of the part of the text that holds the address. */
uint32_t text_end(const struct program *program, uint32_t addr);

const struct segment *segment_of(const struct program *program, uint64_t addr);

/* The bytes of the file that are loaded at an address; NULL where fewer are in its segment. */
const uint8_t *bytes_at(const struct program *program, uint64_t addr, uint32_t count);

/* The contents of a section, NULL where the file doesn't have them. */
const uint8_t *section_bytes(const struct program *program, const Elf64_Shdr *section);

/* The section's name, "" where it has none. */
const char *section_name(const struct program *program, const Elf64_Shdr *section);

/* The text of a string table at an offset, "" where it doesn't end in the table. */
const char *string_in(const struct program *program, const Elf64_Shdr *table, uint64_t offset);
#endif
