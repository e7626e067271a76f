/* Automata: a table of functions, a state in a static variable, comments removed from a text. */
#include <stdio.h>
#include <string.h>

enum state { CODE, SLASH, COMMENT, STAR, STRING, ESCAPE };

static enum state next(enum state now, int c, char *out, int *at) {
  switch (now) {
  case CODE:
    if (c == '/')
      return SLASH;
    out[(*at)++] = (char)c;
    return c == '"' ? STRING : CODE;
  case SLASH:
    if (c == '*')
      return COMMENT;
    out[(*at)++] = '/';
    out[(*at)++] = (char)c;
    return CODE;
  case COMMENT:
    return c == '*' ? STAR : COMMENT;
  case STAR:
    if (c == '/') {
      out[(*at)++] = ' ';
      return CODE;
    }
    return c == '*' ? STAR : COMMENT;
  case STRING:
    out[(*at)++] = (char)c;
    if (c == '\\')
      return ESCAPE;
    return c == '"' ? CODE : STRING;
  case ESCAPE:
    out[(*at)++] = (char)c;
    return STRING;
  }
  return CODE;
}
static int red(void) { return 1; }
static int green(void) { return 2; }
static int yellow(void) {
  static int seen;
  return seen++ % 2 ? 0 : 3;
}
static int flash(void) { return 1; }
static int (*const lights[])(void) = {red, green, yellow, flash};

int main(void) {
  static const char *text = "a = b / c; /* one * two */ s = \"/* \\\" no */\"; /** three **/ end";
  char out[100];
  int at = 0, light = 0, turns[4] = {0};
  enum state now = CODE;
  for (const char *c = text; *c; c++)
    now = next(now, *c, out, &at);
  out[at] = 0;
  for (int i = 0; i < 25; i++) {
    turns[light]++;
    light = lights[light]();
  }
  printf("%s\n%d %d %d %d\n", out, turns[0], turns[1], turns[2], turns[3]);
  return now != CODE;
}
