/* Walks its table of program headers, as the kernel and the C library tell where it is: a call for each entry. */
#define _GNU_SOURCE
#include <link.h>
#include <stdio.h>
#include <sys/auxv.h>
#include <unistd.h>
static unsigned long sum, taken;
void take(const ElfW(Phdr) * it) {
  taken++;
  sum = 31 * sum + it->p_type + it->p_offset + it->p_vaddr + it->p_filesz + it->p_memsz;
}
/* The program's own table has no name; the kernel's object has another one. */
static int walk(struct dl_phdr_info *info, size_t size, void *data) {
  for (int n = 0; n < info->dlpi_phnum && !info->dlpi_name[0]; n++)
    take(&info->dlpi_phdr[n]);
  return 0;
}
/* With a word it is executed again, without one. */
int main(int argc, char **argv) {
  const ElfW(Phdr) *table = (const void *)getauxval(AT_PHDR);
  for (unsigned long n = 0; n < getauxval(AT_PHNUM); n++)
    take(&table[n]);
  dl_iterate_phdr(walk, NULL);
  printf("table %p entries %lu of %lu bytes, entry %lx, sum %lx\n", (const void *)table, getauxval(AT_PHNUM), getauxval(AT_PHENT),
         getauxval(AT_ENTRY), sum);
  printf("taken %lu\n", taken);
  fflush(stdout);
  return argc > 1 ? execl("/proc/self/exe", argv[0], NULL) : 0;
}
