/* A program of half a second whose costs are compared: it sorts a million numbers, counts divisors, and sieves. */
#include <stdio.h>
#include <stdlib.h>
#include <string.h>

enum { NUMBERS = 1000000, DIVIDED = 12000, SIEVED = 8000000 };
static unsigned numbers[NUMBERS];
static char is_composite[SIEVED];

static int order(const void *a, const void *b) {
  unsigned left = *(const unsigned *)a, right = *(const unsigned *)b;
  return left < right ? -1 : left > right;
}
static unsigned sorted(void) {
  unsigned next = 1;
  for (int i = 0; i < NUMBERS; i++)
    numbers[i] = next = next * 1103515245 + 12345;
  qsort(numbers, NUMBERS, sizeof *numbers, order);
  return numbers[NUMBERS / 2];
}
__attribute__((noinline)) static unsigned divisors_of(int n) {
  unsigned count = 0;
  for (int d = 1; d * d <= n; d++)
    count += n % d == 0;
  return count;
}
static unsigned divisors(void) {
  unsigned count = 0;
  for (int n = 1; n < DIVIDED; n++)
    count += divisors_of(n);
  return count;
}
static unsigned primes(void) {
  unsigned count = 0;
  memset(is_composite, 0, sizeof is_composite);
  for (long n = 2; n < SIEVED; n++) {
    count += !is_composite[n];
    for (long m = n * n; m < SIEVED && !is_composite[n]; m += n)
      is_composite[m] = 1;
  }
  return count;
}
int main(void) {
  printf("%u %u %u\n", sorted(), divisors(), primes());
  return 0;
}
