/* Texts: comparison, search, reversal, patterns with stars, distance of edits. */
#include <stdio.h>
#include <string.h>

static int matches(const char *pattern, const char *text) {
  for (; *pattern; pattern++, text++) {
    if (*pattern == '*') {
      do
        if (matches(pattern + 1, text))
          return 1;
      while (*text++);
      return 0;
    }
    if (*pattern == '?' ? !*text : *pattern != *text)
      return 0;
  }
  return !*text;
}
static int distance(const char *a, const char *b) {
  int row[32], n = (int)strlen(b);
  for (int j = 0; j <= n; j++)
    row[j] = j;
  for (int i = 1; a[i - 1]; i++) {
    int corner = row[0];
    row[0] = i;
    for (int j = 1; j <= n; j++) {
      int cost = corner + (a[i - 1] != b[j - 1]);
      corner = row[j];
      if (row[j] + 1 < cost)
        cost = row[j] + 1;
      if (row[j - 1] + 1 < cost)
        cost = row[j - 1] + 1;
      row[j] = cost;
    }
  }
  return row[n];
}
static void reverse(char *text) {
  for (char *end = text + strlen(text); text < --end; text++) {
    char c = *text;
    *text = *end;
    *end = c;
  }
}
static int is_palindrome(const char *text) {
  char other[32];
  strncpy(other, text, 31)[31] = 0;
  reverse(other);
  return strcmp(text, other) == 0;
}
int main(void) {
  static const char *texts[] = {"kitten", "sitting", "level", "banana", "", "noon"};
  int sum = 0, round = 0;
  for (int i = 0; i < 6; i++) {
    for (int j = 0; j < i; j++)
      sum += distance(texts[i], texts[j]);
    round += is_palindrome(texts[i]);
    if (matches("*tt?n*", texts[i]) || matches("b*n?", texts[i]))
      printf("%s ", texts[i]);
  }
  printf("%d %d\n", sum, round);
  return 0;
}
