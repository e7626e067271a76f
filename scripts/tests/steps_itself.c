/* Counts its own instructions by the trap flag, and prints how many they are, if it has an argument. */
#include <signal.h>
#include <stdio.h>

static volatile long steps;

static void on_trap(int number) {
  (void)number;
  steps++;
}

__attribute__((noinline)) static long mixed(long x) { return x & 1 ? 3 * x + 1 : x / 2; }

int main(int argc, char **argv) {
  volatile long x = 27;
  (void)argv;
  signal(SIGTRAP, on_trap);
  __asm__ volatile("pushfq\n orq $0x100, (%%rsp)\n popfq\n nop\n nop" ::: "memory", "cc");
  for (int n = 0; n < 50; n++)
    x = mixed(x);
  __asm__ volatile("pushfq\n andq $~0x100, (%%rsp)\n popfq" ::: "memory", "cc");
  if (argc > 1)
    printf("%ld steps, %ld\n", steps, x);
  printf("%s\n", steps > 2 ? "stepped" : "none");
  return 0;
}
