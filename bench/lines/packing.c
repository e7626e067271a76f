/* Runs and codes of a text: a Huffman tree in arrays, a packed text that is unpacked and compared. */
#include <stdio.h>
#include <string.h>

enum { SYMBOLS = 64 };
static int count[SYMBOLS], above[SYMBOLS], nodes;
static int left[SYMBOLS], right[SYMBOLS];
static char letter[SYMBOLS];

static int least(void) {
  int found = -1;
  for (int i = 0; i < nodes; i++) {
    if (above[i] >= 0)
      continue;
    if (found < 0 || count[i] < count[found])
      found = i;
  }
  if (found >= 0)
    above[found] = nodes;
  return found;
}
static void read(const char *text) {
  for (; *text; text++) {
    int i = 0;
    while (i < nodes && letter[i] != *text)
      i++;
    if (i == nodes) {
      letter[nodes] = *text;
      above[nodes++] = -1;
    }
    count[i]++;
  }
}
static int grow(void) {
  for (;;) {
    int a = least(), b = least();
    if (b < 0) {
      above[a] = -1;
      return a;
    }
    left[nodes] = a;
    right[nodes] = b;
    count[nodes] = count[a] + count[b];
    above[nodes++] = -1;
  }
}
static int code_of(int it, char *code) {
  char turned[SYMBOLS];
  int length = 0;
  for (; above[it] >= 0; it = above[it])
    turned[length++] = left[above[it]] == it ? '0' : '1';
  for (int i = 0; i < length; i++)
    code[i] = turned[length - 1 - i];
  code[length] = 0;
  return length;
}
int main(void) {
  static const char *text = "she sells sea shells on the sea shore";
  char bits[1000] = "", back[100], code[SYMBOLS];
  read(text);
  int leaves = nodes, root = grow(), length = 0, at = root, size = 0;
  for (const char *c = text; *c; c++)
    for (int i = 0; i < leaves; i++)
      if (letter[i] == *c) {
        length += code_of(i, code);
        strcat(bits, code);
        break;
      }
  for (const char *bit = bits; *bit; bit++) {
    at = *bit == '0' ? left[at] : right[at];
    if (at < leaves) {
      back[size++] = letter[at];
      at = root;
    }
  }
  back[size] = 0;
  printf("%d letters in %d bits, %s\n", leaves, length, strcmp(back, text) ? "broken" : "whole");
  return 0;
}
