#!/bin/sh
# Shows what a program executed last before it crashed: it sums up a list of four orders, is asked for five, and reads a null
# pointer after the list's end. The last lines are the last eight executions of blocks, oldest first; the very last is the line
# of `worth` at which it crashed.
. "$(dirname "$0")/begin.sh"

cat > orders.c <<'C'
#include <stdio.h>
struct order {
  int pieces, price;
  struct order *next;
};
static struct order orders[] = {{2, 30, &orders[1]}, {5, 7, &orders[2]}, {1, 99, &orders[3]}, {4, 12, 0}};
static int worth(const struct order *it) {
  return it->pieces * it->price;
}
static int sum(const struct order *it, int n) {
  int total = 0;
  for (; n > 0; n--, it = it->next)
    total += worth(it);
  return total;
}
int main(int argc, char **argv) {
  (void)argv;
  printf("%d\n", sum(orders, 4 + argc));
  return 0;
}
C
gcc -g -O1 -fno-inline -static -no-pie -o orders orders.c

"$vaknuhol" ring 8 ./orders --quiet && ended=0 || ended=$?
stage "it ended with $ended (139 is SIGSEGV); its last executions, oldest first"
"$vaknuhol" report orders
