/* Threads of which one starts the program again in its place, or the first ends before the others; `counted` is called a known number of times. */
#include <pthread.h>
#include <signal.h>
#include <stdio.h>
#include <stdlib.h>
#include <string.h>
#include <sys/time.h>
#include <unistd.h>
static volatile long done, ticks;
static int rounds;
__attribute__((noinline)) void counted(void) { __atomic_add_fetch(&done, 1, __ATOMIC_SEQ_CST); }
static void times(int n) {
  while (n-- > 0)
    counted();
}
static void *busy(void *given) {
  for (volatile long n = 0;; n++)
    continue;
  return given;
}
static void on(int number) { ticks += number == SIGALRM; }
static void mask(int how) {
  sigset_t alarms;
  sigemptyset(&alarms);
  sigaddset(&alarms, SIGALRM);
  pthread_sigmask(how, &alarms, NULL);
}
/* What stays over exec is the mask, so no alarm comes before its handler is there. */
static void *become(void *given) {
  char left[16], *words[] = {"again", "execs", left, NULL};
  usleep(2000);
  times(100);
  mask(SIG_BLOCK);
  snprintf(left, sizeof left, "%d", rounds - 1);
  execv("/proc/self/exe", words);
  return given;
}
static void tick(void) {
  struct itimerval often = {{0, 300}, {0, 300}};
  signal(SIGALRM, on);
  mask(SIG_UNBLOCK);
  setitimer(ITIMER_REAL, &often, NULL);
}
static void *slow(void *first) {
  pthread_join(*(pthread_t *)first, NULL);
  printf("%d\n", getpid());
  fflush(stdout);
  for (;;) {
    counted();
    if (write(1, ".", 1) < 1)
      _exit(8);
    usleep(10000);
  }
}
int main(int argc, char **argv) {
  static pthread_t first;
  pthread_t other;
  if (argc < 2 || strcmp(argv[1], "execs") != 0) {
    first = pthread_self();
    pthread_create(&other, NULL, slow, &first);
    pthread_exit(NULL);
  }
  rounds = atoi(argv[2]);
  tick();
  for (int n = 0; n < 2; n++)
    pthread_create(&other, NULL, busy, NULL);
  if (rounds > 0)
    pthread_create(&other, NULL, become, NULL);
  for (; rounds > 0;)
    usleep(100000);
  times(7);
  printf("last\n");
  fflush(stdout);
  _exit(11);
}
