#!/bin/sh
# Counts in a program with four threads, each of which calls `work` 1,000 times: no count is lost, so the last line is 4000.
. "$(dirname "$0")/begin.sh"

cat > four.c <<'C'
#include <pthread.h>
#include <stdio.h>
static volatile int sums[4];
static void work(int k, int i) {
  sums[k] += i;
}
static void *thread(void *k) {
  for (int i = 0; i < 1000; i++)
    work(*(int *)k, i);
  return NULL;
}
int main(void) {
  pthread_t threads[4];
  int numbers[] = {0, 1, 2, 3};
  for (int k = 0; k < 4; k++)
    pthread_create(&threads[k], NULL, thread, &numbers[k]);
  for (int k = 0; k < 4; k++)
    pthread_join(threads[k], NULL);
  printf("%d\n", sums[0] + sums[1] + sums[2] + sums[3]);
  return 0;
}
C
gcc -g -O1 -fno-inline -static -no-pie -o four four.c

"$vaknuhol" count ./four --threads
stage "first address, executions, site, function and line"
"$vaknuhol" report four --table | tee table
stage "the block with which work begins, of four threads"
grep ' work ' table | head -n 1 | awk '{ print $2 }'
