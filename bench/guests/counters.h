/* Counters that are compiled in: each place has one, and an instruction with LOCK adds to it. At the end they go to the file of the first argument,
   a line each. */
#include <stdio.h>
#include <stdlib.h>

enum { PLACES = 32, THREADS = 8 };
static long counters[PLACES];
#define COUNT() ((void)__atomic_add_fetch(&counters[__COUNTER__], 1, __ATOMIC_RELAXED))

static void write_counters(char **argv) {
  FILE *file = fopen(argv[1], "w");
  if (!file)
    exit(2);
  for (int i = 0; i < PLACES; i++)
    fprintf(file, "%ld\n", counters[i]);
  fclose(file);
}
