/* Threads by clone itself, without a C library: each adds to a sum and ends; the first waits for them. With NONE there are none; with SECOND
   each starts the next one. */
enum { WRITE = 1, CLONE = 56, EXIT = 60, FUTEX = 202, EXIT_GROUP = 231, SHARED = 0x350f00, MOST = 3, TURNS = 50, STACK = 4096 };
static long call(long number, long a, long b, long c, long d) {
  long answer;
  register long r10 __asm__("r10") = d;
  __asm__ volatile("syscall" : "=a"(answer) : "a"(number), "D"(a), "S"(b), "d"(c), "r"(r10) : "rcx", "r11", "memory");
  return answer;
}
static volatile int lives[MOST];
static char stacks[MOST][STACK] __attribute__((aligned(16)));
static long sum;
static void begin(long n);
__attribute__((used)) static void work(long n) {
  for (int i = 0; i < TURNS; i++)
    __atomic_fetch_add(&sum, n + i, __ATOMIC_SEQ_CST);
#ifdef SECOND
  if (n + 1 < MOST)
    begin(n + 1);
#endif
  call(EXIT, 0, 0, 0, 0);
}
long start(long flags, void *stack, int *parent, int *child);
__asm__("start: mov $56, %eax; mov %rcx, %r10; syscall; test %eax, %eax; jnz 1f; pop %rdi; call work; 1: ret");
static void begin(long n) {
  long *top = (long *)(stacks[n] + STACK) - 2;
  *top = n;
  lives[n] = 1;
  start(SHARED, top, (int *)&lives[n], (int *)&lives[n]);
}
__attribute__((used)) static void run(void) {
#ifdef NONE
  for (int i = 0; i < TURNS; i++)
    sum += i;
#else
  begin(0);
#ifdef SECOND
  for (long at; (at = __atomic_load_n(&sum, __ATOMIC_SEQ_CST)) < MOST * TURNS * (TURNS - 1) / 2 + TURNS * MOST * (MOST - 1) / 2;)
    ;
#else
  for (long n = 1; n < MOST; n++)
    begin(n);
#endif
  for (long n = 0; n < MOST; n++)
    for (int is; (is = lives[n]);)
      call(FUTEX, (long)&lives[n], 0, is, 0);
#endif
  static char text[] = "total 000000\n";
  for (int at = 11; at > 5; at--, sum /= 10)
    text[at] = (char)('0' + sum % 10);
  call(WRITE, 1, (long)text, sizeof text - 1, 0);
  call(EXIT_GROUP, 7, 0, 0, 0);
}
__asm__(".globl _start; _start: xor %ebp, %ebp; and $-16, %rsp; call run");
