/* Maps memory where a patch may lie, and where the program itself lies. */
#include <stdio.h>
#include <sys/mman.h>

static char own[8192] __attribute__((aligned(4096)));

int main(void) {
  enum { FLAGS = MAP_PRIVATE | MAP_ANONYMOUS | MAP_FIXED };
  char *low = mmap((void *)0x20000, 0x10000, PROT_READ | PROT_WRITE, FLAGS, -1, 0);
  char *inside = mmap(own, 4096, PROT_READ | PROT_WRITE, FLAGS, -1, 0);
  if (low == MAP_FAILED || inside == MAP_FAILED)
    return 2;
  low[0x8000] = inside[1] = 7;
  printf("%d\n", low[0x8000] + inside[1]);
  return 0;
}
