/* OpenMP: a loop with a sum, sections, tasks, a lock by a name. */
#include <omp.h>
#include <stdio.h>
static long fib(int n) {
  long a, b;
  if (n < 2)
    return n;
#pragma omp task shared(a)
  a = fib(n - 1);
#pragma omp task shared(b)
  b = fib(n - 2);
#pragma omp taskwait
  return a + b;
}
int main(void) {
  long total = 0, last = 0;
  omp_set_num_threads(3);
#pragma omp parallel for reduction(+ : total) schedule(dynamic, 3)
  for (int i = 0; i < 40; i++)
    total += i * i;
#pragma omp parallel
  {
#pragma omp single
    last = fib(7);
#pragma omp critical(named)
    total++;
  }
  printf("total %ld\n", total + last);
  return 7;
}
