#include <stdio.h>
#include <stdlib.h>
int fib(int n) { return n < 2 ? n : fib(n - 1) + fib(n - 2); }
int compare(const void *a, const void *b) { return *(const int *)a - *(const int *)b; }
int never(int n) {
  int m = 3 * n;
  while (m > 100)
    m /= fib(n);
  return m;
}
int collatz(unsigned n) {
  int steps = 0;
  for (; n != 1; steps++)
    n = n % 2 ? 3 * n + 1 : n / 2;
  return steps;
}
/* The table of a `switch` leads into the middle of what runs from one case into the next. */
unsigned mixed = 1;
void mix(unsigned kind) {
  switch (kind) {
  case 0:
    mixed = mixed * 31 + 7;
  case 1:
    mixed ^= mixed >> 5;
  case 2:
    mixed += 1234567;
    break;
  case 3:
    mixed -= 99;
  case 4:
    mixed = mixed << 3 | mixed >> 29;
    break;
  case 5:
    mixed = ~mixed;
    break;
  case 6:
    mixed += 9;
  default:
    mixed *= 5;
  }
}
int (*const chosen[])(unsigned) = {collatz};
int main(int argc, char **argv) {
  int numbers[40], sum = 0;
  if (argc > 9)
    sum = never(argc);
  for (int i = 0; i < 40; i++)
    numbers[i] = (i * 17 + 5) % 41;
  qsort(numbers, 40, sizeof *numbers, compare);
  for (int i = 1; i < 30; i++)
    sum += chosen[0](i) ^ numbers[i];
  for (int i = 0; i < 300; i++)
    mix(i * i % 11);
  printf("%d %d %u\n", fib(12), sum, mixed);
  return 7;
}
