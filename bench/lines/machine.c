/* A stack machine: a switch in a loop, a second one by labels as values. */
#include <stdio.h>

enum op { PUSH, ADD, SUB, MUL, DUP, SWAP, JNZ, PRINT, HALT, NEVER };

static long by_switch(const long *code) {
  long stack[16], steps = 0;
  int top = 0, at = 0;
  for (;;) {
    steps++;
    switch (code[at++]) {
    case PUSH:
      stack[top++] = code[at++];
      break;
    case ADD:
      top--;
      stack[top - 1] += stack[top];
      break;
    case SUB:
      top--;
      stack[top - 1] -= stack[top];
      break;
    case MUL:
      top--;
      stack[top - 1] *= stack[top];
      break;
    case DUP:
      stack[top] = stack[top - 1];
      top++;
      break;
    case SWAP: {
      long it = stack[top - 1];
      stack[top - 1] = stack[top - 2];
      stack[top - 2] = it;
      break;
    }
    case JNZ:
      if (stack[top - 1] != 0)
        at = (int)code[at];
      else
        at++;
      break;
    case PRINT:
      printf("%ld\n", stack[--top]);
      break;
    case HALT:
      return steps;
    default:
      printf("no such operation\n");
      return -1;
    }
  }
}
static long by_labels(const long *code) {
  static const void *const labels[] = {&&push, &&add, &&sub, &&mul, &&dup, &&swap, &&jnz, &&print, &&halt};
  long stack[16], steps = 0, it;
  int top = 0, at = 0;
#define NEXT steps++; goto *labels[code[at++]]
  NEXT;
push:
  stack[top++] = code[at++];
  NEXT;
add:
  top--;
  stack[top - 1] += stack[top];
  NEXT;
sub:
  top--;
  stack[top - 1] -= stack[top];
  NEXT;
mul:
  top--;
  stack[top - 1] *= stack[top];
  NEXT;
dup:
  stack[top] = stack[top - 1];
  top++;
  NEXT;
swap:
  it = stack[top - 1];
  stack[top - 1] = stack[top - 2];
  stack[top - 2] = it;
  NEXT;
jnz:
  at = stack[top - 1] != 0 ? (int)code[at] : at + 1;
  NEXT;
print:
  printf("%ld\n", stack[--top]);
  NEXT;
halt:
  return steps;
}
int main(void) {
  static const long code[] = {PUSH, 1, PUSH, 10, DUP, PUSH, 1, SUB, JNZ, 4, MUL, MUL, MUL, MUL, MUL, PRINT, HALT};
  static const long wrong[] = {PUSH, 2, PUSH, 3, SWAP, ADD, PRINT, NEVER};
  long one = by_switch(code), other = by_labels(code);
  printf("%ld %ld %ld\n", one, other, by_switch(wrong));
  return one != other;
}
