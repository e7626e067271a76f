/* A process whose memory is kept from others of its user, as an agent with keys keeps it, and its child: both work while signals come. The first
   word is how many rounds each makes; with a second one the first process doesn't wait for the other. */
#define _GNU_SOURCE
#include <signal.h>
#include <stdint.h>
#include <stdio.h>
#include <stdlib.h>
#include <string.h>
#include <sys/prctl.h>
#include <sys/time.h>
#include <sys/wait.h>
#include <ucontext.h>
#include <unistd.h>
extern char __executable_start[], etext[];
static volatile sig_atomic_t ticks, astray;
static uint64_t (*volatile chosen)(uint64_t, uint64_t);
/* Where it was interrupted, an instruction of the program stands. */
static void on(int number, siginfo_t *info, void *context) {
  const char *at = (const char *)((ucontext_t *)context)->uc_mcontext.gregs[REG_RIP];
  ticks += info->si_signo == number;
  astray += at < __executable_start || at >= etext;
}
__attribute__((noinline)) uint64_t mix(uint64_t x, uint64_t y) {
  x ^= y + 0x9e3779b97f4a7c15ull + (x << 6) + (x >> 2);
  if (x & 1)
    x = x * 3 + 1;
  return x;
}
static void tick(int often) {
  struct itimerval every = {{0, often}, {0, often}};
  setitimer(ITIMER_REAL, &every, NULL);
}
static uint64_t work(long rounds) {
  uint64_t sum = 1;
  tick(200);
  while (rounds-- > 0)
    sum = chosen(sum, (uint64_t)rounds);
  tick(0);
  return sum;
}
int main(int argc, char **argv) {
  struct sigaction how = {.sa_sigaction = on, .sa_flags = SA_RESTART | SA_SIGINFO};
  long rounds = argc > 1 ? atol(argv[1]) : 1000;
  int status = 0, self = getpid();
  chosen = mix;
  prctl(PR_SET_DUMPABLE, 0, 0, 0, 0);
  sigaction(SIGALRM, &how, NULL);
  printf("%llx\n", (unsigned long long)work(rounds));
  printf("signals %s\n", astray ? "went astray" : "were right");
  fflush(stdout);
  if (fork() == 0) {
    while (argc > 2 && getppid() == self)
      usleep(1000);
    printf("child %llx\n", (unsigned long long)work(rounds));
    printf("child's signals %s\n", astray ? "went astray" : "were right");
    fflush(stdout);
    _exit(7);
  }
  while (argc < 3 && wait(&status) < 0)
    continue;
  if (argc < 3)
    printf("ended with %x, signals %s\n", status, ticks ? "came" : "did not come");
  return 3;
}
