/* Four threads come to the block `come`, each with its number in rdi and the turn in rsi and rax, and with CF where the turn is below 50,
   which the block adds. The status is 7 where no register and no flag is lost. */
#include <pthread.h>
#ifndef TIMES
#define TIMES 1000
#endif
enum { THREADS = 4, CARRYING = 50, ADDED = 0x10000 };
static long sums[THREADS];
__asm__(".globl come; .type come, @function; come: adc $0x10000, %rax; ret; .size come, . - come");
static void *turns(void *sum) {
  for (long turn = 0, rax = 0; turn < TIMES; turn++, *(long *)sum += rax) {
    rax = turn;
    __asm__ volatile("lea -128(%%rsp), %%rsp; cmp $50, %%rsi; call come; lea 128(%%rsp), %%rsp"
                     : "+a"(rax) : "D"((long *)sum - sums), "S"(turn) : "cc", "memory");
  }
  return NULL;
}
int main(void) {
  pthread_t threads[THREADS];
  int right = 0;
  for (int i = 0; i < THREADS; i++)
    pthread_create(&threads[i], NULL, turns, &sums[i]);
  for (int i = 0; i < THREADS; i++) {
    pthread_join(threads[i], NULL);
    right += sums[i] == TIMES * (TIMES - 1L) / 2 + (long)ADDED * TIMES + CARRYING;
  }
  return right == THREADS ? 7 : 8;
}
