/* Four processes that run at once in one memory, as clone makes them without CLONE_THREAD. With an argument the flags are made of that, so that they
   stand nowhere in the program. */
#define _GNU_SOURCE
#include <sched.h>
#include <signal.h>
#include <stdio.h>
#include <stdlib.h>
#include <sys/wait.h>

enum { COUNT = 4, TIMES = 5000, STACK = 1 << 16 };
static char stacks[COUNT][STACK] __attribute__((aligned(16)));
static volatile unsigned long sums[COUNT];

static __attribute__((noinline)) unsigned long mix(unsigned long sum, unsigned long n) {
  return (sum ^ n) * 31 + (sum >> 7);
}

static int work(void *number) {
  unsigned long sum = 1;
  for (long n = 0; n < TIMES; n++)
    sum = mix(sum, n + (long)number);
  sums[(long)number] = sum;
  return 0;
}

int main(int count, char **words) {
  int flags = count > 1 ? atoi(words[1]) : CLONE_VM | SIGCHLD;
  for (long n = 0; n < COUNT; n++)
    if (clone(work, stacks[n] + STACK - 64, flags, (void *)n) < 0)
      return 2;
  while (wait(NULL) > 0)
    continue;
  for (int n = 0; n < COUNT; n++)
    printf("%lx\n", sums[n]);
  return 0;
}
