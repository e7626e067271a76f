"""A static PIE that reads its own file finds its sections and symbols there, settled and patched: as Rust does for the names of a
backtrace."""
from tests.calls import run
from tests.command import call
from tests.needs import need

FINDS = r"""
#include <elf.h>
#include <fcntl.h>
#include <stdio.h>
#include <string.h>
#include <sys/mman.h>
#include <sys/stat.h>
extern const Elf64_Ehdr __ehdr_start;
int found_by_name(int n) { return n * 3; }
int main(void) {
    struct stat known;
    int file = open("/proc/self/exe", O_RDONLY);
    if (file < 0 || fstat(file, &known))
        return 2;
    const char *bytes = mmap(NULL, (size_t)known.st_size, PROT_READ, MAP_PRIVATE, file, 0);
    const Elf64_Ehdr *head = (const void *)bytes;
    const Elf64_Shdr *sections = (const void *)(bytes + head->e_shoff);
    printf("%d sections\n", head->e_shnum);
    for (int at = 0; head->e_shoff && at < head->e_shnum; at++) {
        const char *name = bytes + sections[head->e_shstrndx].sh_offset + sections[at].sh_name;
        if (!strcmp(name, ".comment"))
            printf("%s: %.3s\n", name, bytes + sections[at].sh_offset);
        if (sections[at].sh_type != SHT_SYMTAB)
            continue;
        const Elf64_Sym *symbols = (const void *)(bytes + sections[at].sh_offset);
        const char *names = bytes + sections[sections[at].sh_link].sh_offset;
        for (unsigned long it = 0; it < sections[at].sh_size / sizeof *symbols; it++)
            if (!strcmp(names + symbols[it].st_name, "found_by_name"))
                printf("found_by_name %d\n", (char *)&__ehdr_start + symbols[it].st_value == (char *)found_by_name);
    }
    return found_by_name(1);
}
"""


def sections_in(path: str) -> list[list[str]]:
    """Name, type, and address of each section, as readelf tells them."""
    lines = (line.replace("[ ", "[").split() for line in run("readelf", "-S", "-W", path).splitlines())
    return [words[1:4] for words in lines if words and words[0].startswith("[") and words[0] != "[Nr]"]


def test_a_program_finds_its_own_sections_and_symbols():
    need("gcc")
    need("readelf")
    with open("finds.c", "w", encoding="ascii") as file:
        file.write(FINDS)
    run("gcc", "-O1", "-static-pie", "-o", "finds", "finds.c")
    plain = run("./finds", status=(3,))
    assert "found_by_name 1" in plain and ".comment: GCC" in plain
    assert call("count", "./finds", "--blocks", status=3)[0] == plain
    settled = "finds.vak/settled/finds"
    assert run(f"./{settled}", status=(3,)) == plain
    assert sections_in(settled) == sections_in("finds") and len(sections_in("finds")) > 20
    (patched,) = call("cover", "./finds", "--patch-only")[0].split()
    assert run(f"./{patched}", status=(3,)) == plain
