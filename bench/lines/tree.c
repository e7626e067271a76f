/* A balanced tree of numbers (AVL): recursion with pointers, rotations, a walk with a callback. */
#include <stdio.h>
#include <stdlib.h>

struct node {
  struct node *left, *right;
  int key, height;
};
static int height(const struct node *it) { return it ? it->height : 0; }
static int max(int a, int b) { return a > b ? a : b; }
static void measure(struct node *it) { it->height = 1 + max(height(it->left), height(it->right)); }

static struct node *turn_right(struct node *it) {
  struct node *up = it->left;
  it->left = up->right;
  up->right = it;
  measure(it);
  measure(up);
  return up;
}
static struct node *turn_left(struct node *it) {
  struct node *up = it->right;
  it->right = up->left;
  up->left = it;
  measure(it);
  measure(up);
  return up;
}
static struct node *balanced(struct node *it) {
  measure(it);
  int lean = height(it->left) - height(it->right);
  if (lean > 1) {
    if (height(it->left->left) < height(it->left->right))
      it->left = turn_left(it->left);
    return turn_right(it);
  }
  if (lean < -1) {
    if (height(it->right->right) < height(it->right->left))
      it->right = turn_right(it->right);
    return turn_left(it);
  }
  return it;
}
static struct node *insert(struct node *it, int key) {
  if (!it) {
    it = calloc(1, sizeof *it);
    if (!it)
      abort();
    it->key = key;
    it->height = 1;
    return it;
  }
  if (key == it->key)
    return it;
  if (key < it->key)
    it->left = insert(it->left, key);
  else
    it->right = insert(it->right, key);
  return balanced(it);
}
static void walk(struct node *it, void (*seen)(struct node *, void *), void *with) {
  if (!it)
    return;
  walk(it->left, seen, with);
  struct node *right = it->right;
  seen(it, with);
  walk(right, seen, with);
}
static void add(struct node *it, void *sum) {
  *(long *)sum += it->key;
  free(it);
}
int main(void) {
  struct node *root = NULL;
  long sum = 0;
  for (int i = 0; i < 100; i++)
    root = insert(root, i * 37 % 71);
  int high = height(root);
  walk(root, add, &sum);
  printf("%d high, sum %ld\n", high, sum);
  return 0;
}
