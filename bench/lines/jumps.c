/* goto in all directions, nested breaks, continue, do-while, comma, fall through. */
#include <stdio.h>

static int retry(int limit) {
  int tries = 0;
again:
  tries++;
  if (tries < limit)
    goto again;
  return tries;
}
static int search(int wanted) {
  int y, x;
  for (y = 0; y < 8; y++) {
    for (x = 0; x < 8; x++) {
      if ((x ^ y) & 1)
        continue;
      if (x * y == wanted)
        goto found;
    }
  }
  return -1;
found:
  return y * 8 + x;
}
static int fall(int n) {
  int sum = 0;
  switch (n) {
  case 4:
    sum += 4;
    /* fall through */
  case 3:
    sum += 3;
    /* fall through */
  case 2:
  case 1:
    sum += 2;
    break;
  case 100:
    sum = -1;
    break;
  default:
    sum = 50;
  }
  return sum;
}
static int collatz(long n) {
  int steps = 0;
  do {
    if (n % 2)
      n = 3 * n + 1, steps += 2, n /= 2;
    else
      n /= 2, steps++;
  } while (n != 1);
  return steps;
}
static int cleaned(int stage) {
  int done = 0;
  if (stage < 1)
    goto out;
  done |= 1;
  if (stage < 2)
    goto first;
  done |= 2;
  if (stage > 2)
    done |= 4;
  done <<= 1;
first:
  done <<= 1;
out:
  return done;
}
int main(void) {
  int sum = retry(5);
  for (int i = 0; i < 40; i += 7)
    sum += search(i);
  for (int i = 0; i < 6; i++)
    sum += fall(i);
  for (int i = 2; i < 30; i++)
    sum += collatz(i);
  for (int i = 0; i < 4; i++)
    sum += cleaned(i);
  printf("%d\n", sum);
  return 0;
}
