/* An expression is read and worked out by functions that call each other; errors are told by position. */
#include <ctype.h>
#include <stdio.h>
#include <stdlib.h>

static const char *at, *begin;
static int is_wrong;

static long sum(void);

static void skip(void) {
  while (isspace((unsigned char)*at))
    at++;
}
static long wrong(const char *why) {
  if (!is_wrong)
    printf("%s at %d\n", why, (int)(at - begin));
  is_wrong = 1;
  return 0;
}
static long atom(void) {
  skip();
  if (*at == '(') {
    at++;
    long it = sum();
    skip();
    if (*at != ')')
      return wrong("no bracket");
    at++;
    return it;
  }
  if (*at == '-') {
    at++;
    return -atom();
  }
  if (!isdigit((unsigned char)*at))
    return wrong("no number");
  return strtol(at, (char **)&at, 10);
}
static long product(void) {
  long it = atom();
  for (;;) {
    skip();
    if (*at == '*') {
      at++;
      it *= atom();
    } else if (*at == '/' || *at == '%') {
      char op = *at++;
      long by = atom();
      if (by == 0)
        return wrong("by zero");
      it = op == '/' ? it / by : it % by;
    } else
      return it;
  }
}
static long sum(void) {
  long it = product();
  skip();
  while (*at == '+' || *at == '-') {
    if (*at++ == '+')
      it += product();
    else
      it -= product();
    skip();
  }
  return it;
}
int main(void) {
  static const char *given[] = {"1 + 2 * 3", "(4 - 6) * -(7 % 4)", "100 / (5 - 5)", "2 * (3 + ", "12 34", "8 / 3 * 3"};
  for (unsigned i = 0; i < sizeof given / sizeof *given; i++) {
    at = begin = given[i];
    is_wrong = 0;
    long it = sum();
    if (*at && !is_wrong)
      wrong("what is that");
    if (!is_wrong)
      printf("%s = %ld\n", given[i], it);
  }
  return 0;
}
