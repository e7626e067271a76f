/* Loops, sections, tasks and critical parts of OpenMP: primes, and a sum over a tree. */
#include "counters.h"
#include <omp.h>

enum { NUMBERS = 50000, DEPTH = 10 };
static char is_composite[NUMBERS];

static void strike(int prime) {
  COUNT();
  for (int i = prime * prime; i < NUMBERS; i += prime) {
    COUNT();
    __atomic_store_n(&is_composite[i], 1, __ATOMIC_RELAXED);
  }
}

static long below(int depth, long node) {
  long left, right;
  COUNT();
  if (depth == 0)
    return node % 7;
#pragma omp task shared(left) if (depth > 6)
  left = below(depth - 1, 2 * node);
#pragma omp task shared(right) if (depth > 6)
  right = below(depth - 1, 2 * node + 1);
#pragma omp taskwait
  COUNT();
  return left + right;
}

int main(int argc, char **argv) {
  long primes = 0, greatest = 0, tree = 0;
  omp_set_dynamic(0);
  omp_set_num_threads(THREADS);
#pragma omp parallel for schedule(dynamic)
  for (int i = 2; i < 224; i++) {
    COUNT();
    strike(i);
  }
#pragma omp parallel for reduction(+ : primes)
  for (int i = 2; i < NUMBERS; i++) {
    COUNT();
    if (!is_composite[i]) {
      COUNT();
      primes++;
#pragma omp critical
      if (i > greatest) {
        COUNT();
        greatest = i;
      }
    }
  }
#pragma omp parallel
#pragma omp single
  tree = below(DEPTH, 1);
  printf("%ld %ld %ld\n", primes, greatest, tree);
  write_counters(argv);
  return 0;
}
