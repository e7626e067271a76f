/* Threads that put numbers into a queue, and as many that take them out: a mutex, and two condition variables. */
#include "counters.h"
#include <pthread.h>

enum { SLOTS = 16, EACH = 8000 };
static pthread_mutex_t mutex = PTHREAD_MUTEX_INITIALIZER;
static pthread_cond_t filled = PTHREAD_COND_INITIALIZER, emptied = PTHREAD_COND_INITIALIZER;
static long queue[SLOTS], sums[THREADS];
static int first, length;

static void put(long number) {
  COUNT();
  pthread_mutex_lock(&mutex);
  while (length == SLOTS) {
    COUNT();
    pthread_cond_wait(&emptied, &mutex);
  }
  queue[(first + length++) % SLOTS] = number;
  pthread_cond_signal(&filled);
  pthread_mutex_unlock(&mutex);
}

static long take(void) {
  COUNT();
  pthread_mutex_lock(&mutex);
  while (!length) {
    COUNT();
    pthread_cond_wait(&filled, &mutex);
  }
  long number = queue[first];
  first = (first + 1) % SLOTS, length--;
  pthread_cond_signal(&emptied);
  pthread_mutex_unlock(&mutex);
  return number;
}

static void *putting(void *sum) {
  COUNT();
  for (int i = 0; i < EACH; i++)
    put(i * (long)(1 + (long *)sum - sums));
  return NULL;
}

static void *taking(void *sum) {
  COUNT();
  for (int i = 0; i < EACH; i++) {
    long number = take();
    if (number % 3 == 0) {
      COUNT();
      *(long *)sum += number;
    }
  }
  return NULL;
}

int main(int argc, char **argv) {
  pthread_t threads[THREADS];
  long sum = 0;
  for (int k = 0; k < THREADS; k++)
    pthread_create(&threads[k], NULL, k % 2 ? taking : putting, &sums[k]);
  for (int k = 0; k < THREADS; k++) {
    COUNT();
    pthread_join(threads[k], NULL);
    sum += sums[k];
  }
  printf("%ld\n", sum);
  write_counters(argv);
  return 0;
}
