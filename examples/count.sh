#!/bin/sh
# Counts how often each block and each line of a small C program is executed, by the command vaknuhol, and shows it. On a new machine
# this does all the set-up first: what it needs, e9tool. fib(12) makes 465 calls of fib, and the last line says so.
. "$(dirname "$0")/begin.sh"

cat > numbers.c <<'C'
#include <stdio.h>
static int fib(int n) {
  return n < 2 ? n : fib(n - 1) + fib(n - 2);
}
static void complain(int n) {
  printf("%d is wrong\n", n);
}
int main(void) {
  int n = fib(12);
  if (n != 144)
    complain(n);
  printf("fib(12) is %d\n", n);
  return 0;
}
C
stage "gcc -g -O1 -fno-inline -static -no-pie -o numbers numbers.c"
gcc -g -O1 -fno-inline -static -no-pie -o numbers numbers.c

stage "vaknuhol count ./numbers (its first call in a checkout compiles what it runs)"
"$vaknuhol" count ./numbers
stage "vaknuhol report numbers --table: the blocks of fib: first address, executions, site, function and line"
"$vaknuhol" report numbers --table | grep ' fib '
stage "the block with which fib begins: 465 executions"
"$vaknuhol" report numbers --table | grep ' fib ' | head -n 1 | awk '{ print $2 }'
