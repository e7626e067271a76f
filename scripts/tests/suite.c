/* A program for a suite of tests: what it does depends on its words alone. */
#include <stdio.h>
#include <stdlib.h>
#include <string.h>

static long gcd(long a, long b) {
  while (b) {
    long rest = a % b;
    a = b;
    b = rest;
  }
  return a;
}
static int is_prime(long n) {
  if (n < 2)
    return 0;
  for (long k = 2; k * k <= n; k++)
    if (n % k == 0)
      return 0;
  return 1;
}
static void reverse(char *text) {
  size_t n = strlen(text);
  for (size_t i = 0; i < n / 2; i++) {
    char kept = text[i];
    text[i] = text[n - 1 - i];
    text[n - 1 - i] = kept;
  }
  puts(text);
}
static void crash(void) {
  fflush(stdout);
  abort();
}
int main(int argc, char **argv) {
  const char *how = argc > 2 ? argv[1] : "";
  if (strcmp(how, "gcd") == 0)
    printf("%ld\n", gcd(atol(argv[2]), 360));
  else if (strcmp(how, "prime") == 0)
    printf("%d\n", is_prime(atol(argv[2])));
  else if (strcmp(how, "reverse") == 0)
    reverse(argv[2]);
  else if (strcmp(how, "crash") == 0)
    crash();
  else
    return 2;
  return 0;
}
