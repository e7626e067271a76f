/* Files in memory, to be read; an ELF-64 file, of which all offsets are checked before they are followed. */
#ifndef FILE_H
#define FILE_H
#include <elf.h>
#include <stdbool.h>
#include <stddef.h>
#include <stdint.h>

struct file {
    const uint8_t *bytes;
    size_t size;
};

/* Maps a file of so many bytes at least; false where it can't be (errno), or is shorter (errno is 0). */
bool map_file(struct file *file, const char *path, size_t least);

bool is_in_file(const struct file *file, uint64_t offset, uint64_t length);

/* A file's tables: of program headers, and of sections where it has a whole one. */
struct elf {
    struct file file;
    const Elf64_Phdr *headers;
    const Elf64_Shdr *sections;
    int header_count, section_count;
};

static inline const Elf64_Ehdr *head_of(const struct elf *elf) { return (const void *)elf->file.bytes; }

/* Finds the tables of a mapped file; whether that of program headers is whole. */
bool find_tables(struct elf *elf);
#endif
