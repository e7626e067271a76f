/* A program without a C library, so that it is read in no time: it adds up to twelve, then what it reads, until its input ends. */
static long call(long number, long first, long second, long third) {
  long answer;
  __asm__ volatile("syscall" : "=a"(answer) : "a"(number), "D"(first), "S"(second), "d"(third) : "rcx", "r11", "memory");
  return answer;
}
static volatile long sum;
static void add(long n) {
  sum += n;
}
void _start(void) {
  char read;
  for (long i = 1; i <= 12; i++)
    add(i);
  while (call(0, 0, (long)&read, 1) == 1)
    add(read);
  call(231, 3, 0, 0);
}
