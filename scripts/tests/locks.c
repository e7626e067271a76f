/* Threads that count under a mutex and wait for each other; its status is 7 where none of their counts is lost. */
#include <pthread.h>
#ifndef THREADS
#define THREADS 2
#endif
enum { TIMES = 12 };
static pthread_mutex_t lock = PTHREAD_MUTEX_INITIALIZER;
static pthread_barrier_t all;
static long total;
static void *count(void *by) {
  pthread_barrier_wait(&all);
  for (int i = 0; i < TIMES; i++) {
    pthread_mutex_lock(&lock);
    total += *(long *)by;
    pthread_mutex_unlock(&lock);
  }
  return NULL;
}
int main(void) {
  pthread_t threads[THREADS];
  long by = 3;
  pthread_barrier_init(&all, NULL, THREADS);
  for (int i = 0; i < THREADS; i++)
    pthread_create(&threads[i], NULL, count, &by);
  for (int i = 0; i < THREADS; i++)
    pthread_join(threads[i], NULL);
  return total == 3 * TIMES * THREADS ? 7 : 8;
}
