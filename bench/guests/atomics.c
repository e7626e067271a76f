/* Threads and atomics of C11: a stack without locks, a spin lock, sums by compare and exchange. */
#include "counters.h"
#include <stdatomic.h>
#include <threads.h>

enum { EACH = 5000 };
struct node {
  struct node *below;
  long value;
};
static _Atomic(struct node *) top;
static atomic_flag lock = ATOMIC_FLAG_INIT;
static atomic_long sum, most;
static long guarded;
static struct node nodes[THREADS][EACH];

static void push(struct node *node) {
  struct node *seen = atomic_load(&top);
  COUNT();
  do {
    COUNT();
    node->below = seen;
  } while (!atomic_compare_exchange_weak(&top, &seen, node));
}

static void guard(long value) {
  while (atomic_flag_test_and_set(&lock)) {
    COUNT();
    thrd_yield();
  }
  guarded ^= value;
  COUNT();
  atomic_flag_clear(&lock);
}

static void raise_to(long value) {
  long seen = atomic_load(&most);
  COUNT();
  while (seen < value && !atomic_compare_exchange_weak(&most, &seen, value))
    COUNT();
}

static int work(void *number) {
  struct node *own = nodes[*(int *)number];
  COUNT();
  for (int i = 0; i < EACH; i++) {
    own[i].value = (i + 1) * (*(int *)number + 1);
    push(&own[i]);
    guard(own[i].value);
    raise_to(own[i].value);
    if (own[i].value % 5 == 0) {
      COUNT();
      atomic_fetch_add(&sum, own[i].value);
    }
  }
  return 0;
}

int main(int argc, char **argv) {
  static int numbers[THREADS];
  thrd_t threads[THREADS];
  long stacked = 0;
  for (int k = 0; k < THREADS; k++) {
    numbers[k] = k;
    thrd_create(&threads[k], work, &numbers[k]);
  }
  for (int k = 0; k < THREADS; k++)
    thrd_join(threads[k], NULL);
  for (struct node *node = top; node; node = node->below) {
    COUNT();
    stacked += node->value;
  }
  printf("%ld %ld %ld %ld\n", stacked, guarded, sum, most);
  write_counters(argv);
  return 0;
}
