#include <pthread.h>
#include <stdio.h>
#include <unistd.h>
#ifndef TIMES
#define TIMES 1000
#endif
static long sums[4];
static void *add(void *sum) {
  for (int i = 0; i < TIMES; i++)
    *(long *)sum += i;
  return NULL;
}
int main(int argc, char **argv) {
  pthread_t threads[4];
  for (int i = 0; i < 4; i++)
    pthread_create(&threads[i], NULL, add, &sums[i]);
  for (int i = 0; i < 4; i++)
    pthread_join(threads[i], NULL);
  printf("%ld\n", sums[0] + sums[1] + sums[2] + sums[3]);
  fflush(stdout);
  if (argc > 1)
    pause();
  return 0;
}
