/* Orders of a shop, as a list: the sum of more of them than there are reads past the list's end, and crashes. The first
   argument says how many are summed up, the second how the program ends. */
#include <signal.h>
#include <stdio.h>
#include <stdlib.h>
#include <string.h>
#include <sys/wait.h>
#include <unistd.h>
struct order {
  int pieces, price;
  struct order *next;
};
static struct order orders[] = {{2, 30, &orders[1]}, {5, 7, &orders[2]}, {1, 99, &orders[3]}, {4, 12, 0}};
static int discount(int pieces) {
  if (pieces > 3)
    return 10;
  return 0;
}
static int worth(const struct order *it) {
  return it->pieces * it->price * (100 - discount(it->pieces)) / 100;
}
static int sum(const struct order *it, int n) {
  int total = 0;
  for (; n > 0; n--, it = it->next)
    total += worth(it);
  return total;
}
int main(int argc, char **argv) {
  int n = argc > 1 ? atoi(argv[1]) : 4;
  const char *then = argc > 2 ? argv[2] : "";
  if (strcmp(then, "fork") == 0 && fork() == 0)
    n = 5;
  printf("%d\n", sum(orders, n));
  wait(NULL);
  if (strcmp(then, "abort") == 0)
    abort();
  if (strcmp(then, "kill") == 0)
    kill(getpid(), SIGKILL);
  return 3;
}
