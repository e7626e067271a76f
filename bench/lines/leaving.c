/* Functions that are left otherwise than by a return: setjmp and longjmp, exit from a depth, handlers at the end. */
#include <setjmp.h>
#include <stdio.h>
#include <stdlib.h>

static jmp_buf place;
static int depth, ended;

static void fail(int why) {
  if (why)
    longjmp(place, why);
}
static int descend(int n) {
  depth++;
  if (n == 0) {
    fail(depth);
    return 0;
  }
  int it = descend(n - 1);
  return it + 1;
}
static void at_end(void) {
  ended++;
  printf("the end, %d\n", depth);
}
static void stop(int n) {
  if (n > 2)
    exit(0);
  printf("going on, %d\n", n);
}
int main(void) {
  atexit(at_end);
  volatile int tries = 0;
  int why = setjmp(place);
  if (why == 0) {
    tries++;
    descend(4);
  } else if (why < 20) {
    tries++;
    depth += 10;
    descend(2);
  } else {
    printf("left by %d\n", why);
  }
  for (int i = 0;; i++)
    stop(i);
}
