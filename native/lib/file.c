#include "file.h"

#include <errno.h>
#include <fcntl.h>
#include <sys/mman.h>
#include <sys/stat.h>
#include <unistd.h>

bool map_file(struct file *file, const char *path, size_t least) {
    int descriptor = open(path, O_RDONLY | O_CLOEXEC);
    struct stat known;
    if (descriptor < 0 || fstat(descriptor, &known))
        return false;
    void *bytes = MAP_FAILED;
    errno = 0;
    file->size = (size_t)known.st_size;
    if (file->size >= least && file->size)
        bytes = mmap(NULL, file->size, PROT_READ, MAP_PRIVATE, descriptor, 0);
    close(descriptor);
    file->bytes = bytes;
    return bytes != MAP_FAILED;
}

bool is_in_file(const struct file *file, uint64_t offset, uint64_t length) { return offset <= file->size && length <= file->size - offset; }

bool find_tables(struct elf *elf) {
    const Elf64_Ehdr *head = head_of(elf);
    if (head->e_shoff && head->e_shoff % 8 == 0 && head->e_shentsize == sizeof(Elf64_Shdr)
        && is_in_file(&elf->file, head->e_shoff, head->e_shnum * sizeof(Elf64_Shdr))) {
        elf->sections = (const void *)(elf->file.bytes + head->e_shoff);
        elf->section_count = head->e_shnum;
    }
    elf->headers = (const void *)(elf->file.bytes + head->e_phoff);
    elf->header_count = head->e_phnum;
    return head->e_phentsize == sizeof(Elf64_Phdr) && head->e_phoff % 8 == 0 && is_in_file(&elf->file, head->e_phoff, head->e_phnum * sizeof(Elf64_Phdr));
}
