/* Counts words of a text in a table with chains: strings, pointers to pointers, early exits. */
#include <ctype.h>
#include <stdio.h>
#include <stdlib.h>
#include <string.h>

struct entry {
  struct entry *next;
  int count;
  char word[24];
};
static struct entry *table[31];
static const char *text =
    "the quick brown fox jumps over the lazy dog and the dog barks at the fox while the cat sleeps on the mat "
    "and dreams of a quick mouse; it is 7 o'clock, and the mouse dreams too.";

static unsigned hash(const char *word) {
  unsigned h = 5381;
  for (; *word; word++)
    h = h * 33 ^ (unsigned char)*word;
  return h;
}
static struct entry *find(const char *word) {
  struct entry **at = &table[hash(word) % 31];
  while (*at) {
    if (strcmp((*at)->word, word) == 0)
      return *at;
    at = &(*at)->next;
  }
  *at = calloc(1, sizeof **at);
  if (!*at) {
    perror("words");
    exit(1);
  }
  strcpy((*at)->word, word);
  return *at;
}
static const char *next_word(const char *at, char *word) {
  int length = 0;
  while (*at && !isalpha((unsigned char)*at))
    at++;
  if (!*at)
    return NULL;
  for (; isalpha((unsigned char)*at); at++)
    if (length < 23)
      word[length++] = (char)tolower((unsigned char)*at);
  word[length] = 0;
  return at;
}
int main(void) {
  char word[24];
  int total = 0, most = 0;
  const char *best = "";
  for (const char *at = text; (at = next_word(at, word)) != NULL; total++)
    find(word)->count++;
  for (int i = 0; i < 31; i++)
    for (struct entry *it = table[i]; it; it = it->next)
      if (it->count > most || (it->count == most && strcmp(it->word, best) < 0)) {
        most = it->count;
        best = it->word;
      }
  for (int i = 0; i < 31; i++) {
    struct entry *it = table[i];
    while (it) {
      struct entry *next = it->next;
      if (it->word != best)
        free(it);
      it = next;
    }
  }
  printf("%d words, most often %s (%d)\n", total, best, most);
  return 0;
}
