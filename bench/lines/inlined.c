/* Small functions that are inlined at several places, always or by the optimizer, in loops and in conditions. */
#include <stdio.h>

#define ALWAYS static inline __attribute__((always_inline))

ALWAYS int clamp(int it, int low, int high) {
  if (it < low)
    return low;
  return it > high ? high : it;
}
ALWAYS unsigned turned(unsigned it, int by) {
  return it << by | it >> (32 - by);
}
static int weight(int it) {
  int sum = 0;
  while (it) {
    sum += it & 1;
    it >>= 1;
  }
  return sum;
}
static int parity(int it) {
  return weight(it) % 2;
}
static inline int middle(int a, int b, int c) {
  if (a > b) {
    int t = a;
    a = b;
    b = t;
  }
  if (c < a)
    return a;
  return c > b ? b : c;
}
static int once(int it) {
  int r = 1;
  for (int i = 0; i < it; i++)
    r = r * 3 % 101;
  return r;
}
int main(void) {
  unsigned mix = 1;
  int sum = 0, odd = 0;
  for (int i = -5; i < 15; i++) {
    sum += clamp(i, 0, 9);
    mix = turned(mix ^ (unsigned)i, 5);
    if (parity(i & 15))
      odd++;
  }
  for (int i = 0; i < 10; i++)
    sum += clamp(i * i, 3, 50) + middle(i, 10 - i, 4);
  sum += weight((int)(mix & 0xffff)) + once(6);
  printf("%d %d %u\n", sum, odd, mix);
  return 0;
}
