/* Functions of any number of arguments, texts that are built, arrays of variable length. */
#include <stdarg.h>
#include <stdio.h>
#include <string.h>

static long total(int count, ...) {
  va_list all;
  long sum = 0;
  va_start(all, count);
  for (int i = 0; i < count; i++)
    sum += va_arg(all, int);
  va_end(all);
  return sum;
}
static int format(char *to, const char *how, ...) {
  char *begin = to;
  va_list all;
  va_start(all, how);
  for (; *how; how++) {
    if (*how != '%') {
      *to++ = *how;
      continue;
    }
    switch (*++how) {
    case 's':
      for (const char *it = va_arg(all, const char *); *it;)
        *to++ = *it++;
      break;
    case 'd': {
      int it = va_arg(all, int), digits = 0;
      char text[12];
      if (it < 0) {
        *to++ = '-';
        it = -it;
      }
      do
        text[digits++] = (char)('0' + it % 10);
      while (it /= 10);
      while (digits)
        *to++ = text[--digits];
      break;
    }
    case '%':
      *to++ = '%';
      break;
    default:
      va_end(all);
      return -1;
    }
  }
  *to = 0;
  va_end(all);
  return (int)(to - begin);
}
static int longest(int n) {
  int length[n], best = 0;
  for (int i = 0; i < n; i++) {
    length[i] = 1;
    for (int j = 0; j < i; j++)
      if (j * 7 % 11 < i * 7 % 11 && length[j] + 1 > length[i])
        length[i] = length[j] + 1;
    if (length[i] > best)
      best = length[i];
  }
  return best;
}
int main(void) {
  char text[100];
  int length = format(text, "%s has %d of %d%%", "it", -120, 45);
  printf("%s %d %d\n", text, length, format(text, "%q"));
  printf("%ld %ld %d %d\n", total(0), total(4, 1, 2, 3, 4), longest(11), longest(30));
  return 0;
}
