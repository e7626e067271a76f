/* A program for profiles_and_callgrind.py: trees that are evaluated by functions in a table, and three sorts, of which one compares texts. */
#include <stdio.h>
#include <stdlib.h>
#include <string.h>

typedef struct node {
    int op;
    struct node *l, *r;
    double v;
} node;

static node *make(int op, node *l, node *r, double v) {
    node *n = malloc(sizeof *n);
    *n = (node){ op, l, r, v };
    return n;
}

static node *grow(int depth) {
    if (!depth)
        return make(0, 0, 0, rand() % 10);
    int op = 1 + rand() % 3;
    node *l = grow(depth - 1);
    return make(op, l, grow(depth - 1), 0);
}

static double eval(node *n);
static double add(node *n) { return eval(n->l) + eval(n->r); }
static double sub(node *n) { return eval(n->l) - eval(n->r); }

static double mul(node *n) {
    double s = 0;
    for (int i = 0; i < 20; i++)
        s += i;
    return eval(n->l) * eval(n->r) / s;
}

static double value(node *n) { return n->v; }
static double (*const by_op[])(node *) = { value, add, sub, mul };
static double eval(node *n) { return by_op[n->op](n); }

static void drop(node *n) {
    if (n) {
        drop(n->l);
        drop(n->r);
        free(n);
    }
}

static int up(const void *a, const void *b) { return *(const int *)a - *(const int *)b; }

static int down(const void *a, const void *b) {
    for (volatile int i = 0; i < 5; i++)
        ;
    return *(const int *)b - *(const int *)a;
}

static int compare(const void *a, const void *b) { return strcmp(*(char *const *)a, *(char *const *)b); }

__attribute__((noinline)) static int numbers(int n) {
    int *v = malloc(n * sizeof *v);
    for (int i = 0; i < n; i++)
        v[i] = rand() % 10000;
    qsort(v, n, sizeof *v, up);
    int k = v[n / 2];
    qsort(v, n / 2, sizeof *v, down);
    k += v[0];
    free(v);
    return k;
}

__attribute__((noinline)) static int words(int n) {
    char **v = malloc(n * sizeof *v);
    for (int i = 0; i < n; i++) {
        char b[32];
        snprintf(b, sizeof b, "word%d", rand() % 5000);
        v[i] = strdup(b);
    }
    qsort(v, n, sizeof *v, compare);
    int k = strlen(v[0]);
    for (int i = 0; i < n; i++)
        free(v[i]);
    free(v);
    return k;
}

int main(void) {
    srand(1);
    node *t = grow(8);
    double s = 0;
    for (int i = 0; i < 5; i++)
        s += eval(t);
    drop(t);
    printf("%f %d %d\n", s, numbers(600), words(300));
    return 0;
}
