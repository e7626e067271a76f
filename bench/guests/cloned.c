/* Threads by clone itself, which find the numbers whose Collatz sequences are long; a futex tells when one has ended. */
#define _GNU_SOURCE
#include "counters.h"
#include <sched.h>
#include <sys/mman.h>
#include <sys/syscall.h>
#include <unistd.h>

enum { STACK = 1 << 16, NUMBERS = 10000, FUTEX_WAIT = 0 }; /* of linux/futex.h, which musl lacks */
static int alive[THREADS], numbers[THREADS];
static long found[THREADS];

static int steps(unsigned long n) {
  int made = 0;
  COUNT();
  for (; n != 1; made++) {
    COUNT();
    if (n & 1) {
      COUNT();
      n = 3 * n + 1;
    } else
      n /= 2;
  }
  return made;
}

static int work(void *number) {
  int k = *(int *)number;
  COUNT();
  for (int n = k + 1; n < NUMBERS; n += THREADS)
    if (steps(n) > 100) {
      COUNT();
      found[k] += n;
    }
  return 0;
}

int main(int argc, char **argv) {
  long sum = 0;
  for (int k = 0; k < THREADS; k++) {
    char *stack = mmap(NULL, STACK, PROT_READ | PROT_WRITE, MAP_PRIVATE | MAP_ANONYMOUS, -1, 0);
    numbers[k] = k, alive[k] = 1;
    COUNT();
    if (clone(work, stack + STACK,
              CLONE_VM | CLONE_FS | CLONE_FILES | CLONE_SIGHAND | CLONE_THREAD | CLONE_SYSVSEM | CLONE_CHILD_CLEARTID, &numbers[k], NULL, NULL,
              &alive[k]) < 0)
      return 1;
  }
  for (int k = 0; k < THREADS; k++) {
    while (__atomic_load_n(&alive[k], __ATOMIC_SEQ_CST)) {
      COUNT();
      syscall(SYS_futex, &alive[k], FUTEX_WAIT, 1, NULL, NULL, 0);
    }
    sum += found[k];
  }
  printf("%ld\n", sum);
  write_counters(argv);
  return 0;
}
