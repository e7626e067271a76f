/* Linked lists: reversal, merging, removal through a pointer to a pointer, a cycle found. */
#include <stddef.h>
#include <stdio.h>

struct item {
  struct item *next;
  int value;
};
static struct item items[40];

static struct item *reversed(struct item *it) {
  struct item *before = NULL;
  while (it) {
    struct item *next = it->next;
    it->next = before;
    before = it;
    it = next;
  }
  return before;
}
static struct item *merged(struct item *a, struct item *b) {
  struct item head, *last = &head;
  while (a && b)
    if (a->value <= b->value) {
      last = last->next = a;
      a = a->next;
    } else {
      last = last->next = b;
      b = b->next;
    }
  last->next = a ? a : b;
  return head.next;
}
static struct item *sorted(struct item *it) {
  if (!it || !it->next)
    return it;
  struct item *slow = it, *fast = it->next;
  while (fast && (fast = fast->next)) {
    slow = slow->next;
    fast = fast->next;
  }
  struct item *half = slow->next;
  slow->next = NULL;
  return merged(sorted(it), sorted(half));
}
static int removed(struct item **at, int value) {
  int count = 0;
  while (*at)
    if ((*at)->value == value) {
      *at = (*at)->next;
      count++;
    } else
      at = &(*at)->next;
  return count;
}
static int goes_round(const struct item *it) {
  for (const struct item *fast = it; fast && fast->next;) {
    it = it->next;
    fast = fast->next->next;
    if (it == fast)
      return 1;
  }
  return 0;
}
int main(void) {
  for (int i = 0; i < 40; i++) {
    items[i].value = i * 11 % 17;
    items[i].next = i < 39 ? &items[i + 1] : NULL;
  }
  struct item *list = sorted(reversed(items));
  int gone = removed(&list, 5) + removed(&list, 99), count = 0, before = goes_round(list);
  struct item *last = list;
  for (struct item *it = list; it; last = it, it = it->next)
    count++;
  last->next = list->next;
  printf("%d removed, %d left, %d %d\n", gone, count, before, goes_round(list));
  return 0;
}
