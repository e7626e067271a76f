/* Counters of each processor, by a restartable sequence: the kernel leads a thread that it interrupts between 1 and 2 to 4. */
#define _GNU_SOURCE
#include <pthread.h>
#include <stdint.h>
#include <stdio.h>
#include <stdlib.h>
#include <sys/rseq.h>

enum { THREADS = 8, PROCESSORS = 256 };
static struct { volatile uint64_t count; char rest[56]; } counters[PROCESSORS] __attribute__((aligned(64)));
static long times = 20000;

static __attribute__((noinline)) void add(struct rseq *area) {
  for (;;) {
    uint32_t processor = *(volatile uint32_t *)&area->cpu_id_start;
    __asm__ goto volatile(
        ".pushsection __rseq_cs, \"aw\"\n .balign 32\n sequence: .long 0, 0\n .quad 1f, 2f - 1f, 4f\n .popsection\n"
        "lea sequence(%%rip), %%rax\n mov %%rax, 8(%[area])\n"
        "1: cmp %[processor], 4(%[area])\n jne 4f\n"
        "mov (%[counter]), %%rax\n mov $400, %%ecx\n 5: dec %%ecx\n jnz 5b\n inc %%rax\n"
        "mov %%rax, (%[counter])\n 2:\n"
        "jmp 6f\n .byte 0x0f, 0xb9, 0x3d\n .long 0x53053053\n 4: jmp %l[again]\n 6:\n"
        ::[area] "r"(area), [processor] "r"(processor), [counter] "r"(&counters[processor].count) : "rax", "rcx", "memory", "cc" : again);
    return;
again:;
  }
}

static void *work(void *none) {
  struct rseq *area = (struct rseq *)((char *)__builtin_thread_pointer() + __rseq_offset);
  for (long n = 0; n < times; n++)
    add(area);
  return none;
}

int main(int count, char **words) {
  pthread_t threads[THREADS];
  uint64_t sum = 0;
  if (count > 1)
    times = atol(words[1]);
  for (int n = 0; n < THREADS; n++)
    pthread_create(&threads[n], NULL, work, NULL);
  for (int n = 0; n < THREADS; n++)
    pthread_join(threads[n], NULL);
  for (int n = 0; n < PROCESSORS; n++)
    sum += counters[n].count;
  printf("%lu of %ld\n", sum, THREADS * times);
  return 0;
}
