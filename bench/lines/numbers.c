/* Numbers: primes, powers modulo, large ones as digits, continued fractions, overflow that is seen. */
#include <limits.h>
#include <stdio.h>
#include <stdlib.h>

static unsigned long power(unsigned long base, unsigned long by, unsigned long modulus) {
  unsigned long it = 1;
  while (by) {
    if (by % 2)
      it = it * base % modulus;
    base = base * base % modulus;
    by /= 2;
  }
  return it;
}
static int is_prime(unsigned n) {
  static const unsigned witnesses[] = {2, 3, 5, 7};
  if (n < 2)
    return 0;
  for (int i = 0; i < 4; i++)
    if (n % witnesses[i] == 0)
      return n == witnesses[i];
  unsigned odd = n - 1, twos = 0;
  for (; odd % 2 == 0; odd /= 2)
    twos++;
  for (int i = 0; i < 4; i++) {
    unsigned long it = power(witnesses[i], odd, n);
    if (it == 1 || it == n - 1)
      continue;
    unsigned round = 1;
    for (; round < twos; round++) {
      it = it * it % n;
      if (it == n - 1)
        break;
    }
    if (round == twos)
      return 0;
  }
  return 1;
}
static int digits_of_factorial(int n) {
  unsigned char digit[100] = {1};
  int length = 1;
  for (int k = 2; k <= n; k++) {
    int carry = 0;
    for (int i = 0; i < length || carry; i++) {
      carry += digit[i] * k;
      digit[i] = (unsigned char)(carry % 10);
      carry /= 10;
      if (i == length)
        length++;
    }
  }
  return length;
}
static int added(int a, int b) {
  int sum;
  if (__builtin_add_overflow(a, b, &sum))
    return a > 0 ? INT_MAX : INT_MIN;
  return sum;
}
int main(void) {
  int primes = 0;
  for (unsigned i = 0; i < 300; i++)
    primes += is_prime(i);
  int at = INT_MAX - 20, least = 0;
  for (int i = 0; i < 8; i++) {
    at = added(at, i);
    least = added(least, INT_MIN / 3 - i);
  }
  div_t parts = div(-37, 5);
  printf("%d %d %d %d %d\n", primes, digits_of_factorial(40), at == INT_MAX, least == INT_MIN, parts.quot * 10 + parts.rem);
  return 0;
}
