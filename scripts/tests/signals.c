/* Cases of signals: each prints what must not depend on a patch. usage: signals CASE */
#define _GNU_SOURCE
#include <errno.h>
#include <poll.h>
#include <pthread.h>
#include <setjmp.h>
#include <signal.h>
#include <stdint.h>
#include <stdio.h>
#include <stdlib.h>
#include <string.h>
#include <sys/time.h>
#include <sys/wait.h>
#include <time.h>
#include <ucontext.h>
#include <unistd.h>

static volatile uint64_t noise, ticks, wrong_info, outside;
extern char __executable_start, etext;
static __attribute__((noinline)) uint64_t mix(uint64_t x) {
  if (x & 1)
    x = x * 6364136223846793005ul + 1442695040888963407ul;
  else
    x ^= x >> 7;
  return x;
}
static __attribute__((noinline)) uint64_t work(uint64_t n) {
  uint64_t a = 1, b = 0;
  for (uint64_t i = 0; i < n; i++) {
    a = mix(a + i);
    if (a & 4)
      b += a;
    else
      b ^= a;
  }
  return a ^ b;
}
static void on(int number) {
  (void)number;
  ticks++;
  for (int i = 0; i < 8; i++)
    noise = mix(noise + (uint64_t)i);
}
static void on_told(int number, siginfo_t *info, void *context) {
  uint64_t rip = (uint64_t)((ucontext_t *)context)->uc_mcontext.gregs[REG_RIP];
  on(number);
  if (number == SIGRTMIN && (info->si_code != SI_QUEUE || info->si_value.sival_int < 1000))
    wrong_info++;
  if (number == SIGALRM && info->si_code != SI_KERNEL)
    wrong_info++;
  if (rip < (uint64_t)&__executable_start || rip >= (uint64_t)&etext)
    outside++;
}
static void handle(int number, void (*to)(int), int flags) {
  struct sigaction action = {.sa_handler = to, .sa_flags = flags};
  sigaction(number, &action, NULL);
}
static void handle_told(int number, int flags) {
  struct sigaction action = {.sa_sigaction = on_told, .sa_flags = SA_SIGINFO | flags};
  sigaction(number, &action, NULL);
}
static void timer(long us) {
  struct itimerval each = {{0, us}, {0, us}};
  setitimer(ITIMER_REAL, &each, NULL);
}
static void tell(const char *what, uint64_t value) { printf("%s %lx\n", what, value); }
/* As often as it takes until some ticks have come. The numbers of both go to standard error: they differ from run to run. */
static void counted(void) {
  uint64_t result, rounds = 0;
  handle(SIGALRM, on, SA_RESTART);
  timer(200);
  do
    result = work(1000000), rounds++;
  while (ticks <= 10);
  timer(0);
  tell("work", result);
  fprintf(stderr, "%lu %lu\n", ticks, rounds);
}
static void interrupted(void) {
  int ends[2], n = 0;
  char c;
  if (pipe(ends))
    exit(9);
  handle(SIGALRM, on, 0);
  timer(2000);
  for (int i = 0; i < 60; i++)
    n += read(ends[0], &c, 1) < 0 && errno == EINTR;
  timer(0);
  tell("interrupted reads", (uint64_t)n);
}
static void restarted(void) {
  int ends[2], n = 0;
  char c = 'x';
  if (pipe(ends))
    exit(9);
  handle(SIGALRM, on, SA_RESTART);
  if (fork() == 0) {
    for (int i = 0; i < 20; i++) {
      usleep(10000);
      if (write(ends[1], &c, 1) < 1)
        _exit(1);
    }
    _exit(0);
  }
  timer(1000);
  for (int i = 0; i < 20; i++)
    n += read(ends[0], &c, 1) == 1;
  while (ticks <= 3)
    pause();
  timer(0);
  wait(NULL);
  tell("restarted reads", (uint64_t)n), tell("some ticks", ticks > 3);
}
static sigjmp_buf back;
static volatile int faults;
static void leave(int number) {
  (void)number;
  faults++;
  siglongjmp(back, 1);
}
static __attribute__((noinline)) int poke(volatile int *p, int v) {
  if (v & 1)
    *p = v;
  else
    return *p + v;
  return v;
}
static __attribute__((noinline)) int divide(volatile int a, volatile int b) { return a / b; }
static void faulting(void) {
  volatile uint64_t sum = 0;
  handle(SIGSEGV, leave, 0), handle(SIGFPE, leave, 0), handle(SIGALRM, on, SA_RESTART);
  timer(300);
  for (volatile int i = 0; i < 1000; i++)
    if (!sigsetjmp(back, 1))
      sum += i % 3 == 2 ? (uint64_t)divide(i, 0) : (uint64_t)poke((int *)8, i);
    else
      sum += work(100);
  timer(0);
  tell("faults", (uint64_t)faults), tell("sum", sum);
}
static void nested(void) {
  timer_t id;
  struct sigevent event = {.sigev_notify = SIGEV_SIGNAL, .sigev_signo = SIGUSR1};
  struct itimerspec each = {{0, 170000}, {0, 170000}};
  stack_t stack = {malloc(65536), 0, 65536};
  sigaltstack(&stack, NULL);
  handle(SIGUSR1, on, SA_RESTART), handle(SIGALRM, on, SA_RESTART | SA_ONSTACK);
  timer_create(CLOCK_MONOTONIC, &event, &id), timer_settime(id, 0, &each, NULL), timer(200);
  tell("nested", work(500000));
  timer(0), timer_delete(id);
}
static void stopped(void) {
  int status, n = 0;
  pid_t child = fork();
  handle(SIGALRM, on, SA_RESTART), handle(SIGCONT, on, SA_RESTART);
  if (child == 0) {
    uint64_t result = work(20000);
    timer(200);
    while (work(20000) == result)
      ;
    _exit(5);
  }
  for (int i = 0; i < 20; i++) {
    usleep(1000);
    kill(child, SIGSTOP);
    if (waitpid(child, &status, WUNTRACED) != child || !WIFSTOPPED(status))
      break;
    n++;
    kill(child, SIGCONT);
    if (waitpid(child, &status, WCONTINUED) != child || !WIFCONTINUED(status))
      break;
  }
  kill(child, SIGTERM);
  waitpid(child, &status, 0);
  tell("stops", (uint64_t)n), tell("status", (uint64_t)status);
}
static volatile int reaped;
static void reap(int number) {
  int kept = errno;
  (void)number;
  while (waitpid(-1, NULL, WNOHANG) > 0)
    reaped++;
  errno = kept;
}
static void children(void) {
  sigset_t block, old;
  handle(SIGCHLD, reap, SA_RESTART), handle(SIGALRM, on, SA_RESTART);
  sigemptyset(&block), sigaddset(&block, SIGCHLD);
  timer(500);
  for (int i = 0; i < 40; i++)
    if (fork() == 0) {
      timer(100);
      noise = work(3000);
      _exit(0);
    }
  sigprocmask(SIG_BLOCK, &block, &old);
  while (reaped < 40)
    sigsuspend(&old);
  timer(0);
  tell("children", (uint64_t)reaped);
}
static void queued(void) {
  pid_t self = getpid(), child;
  int status, got = 0;
  sigset_t one, old;
  handle_told(SIGRTMIN, SA_RESTART), handle_told(SIGALRM, SA_RESTART);
  child = fork();
  if (child == 0) {
    union sigval value;
    for (int i = 0; i < 500; i++) {
      value.sival_int = 1000 + i;
      while (sigqueue(self, SIGRTMIN, value))
        usleep(10);
      usleep(20);
    }
    _exit(0);
  }
  timer(300);
  tell("queued", work(1000000));
  while (waitpid(child, &status, 0) < 0)
    ;
  timer(0);
  sigemptyset(&one), sigaddset(&one, SIGUSR1), sigprocmask(SIG_BLOCK, &one, &old);
  if (fork() == 0)
    _exit(kill(self, SIGUSR1));
  sigwait(&one, &got);
  wait(NULL);
  tell("sigwait", (uint64_t)got), tell("wrong siginfo", wrong_info), tell("interrupted outside of the program", outside);
}
static void trapped(void) {
  struct sigaction action;
  sigset_t one, now;
  handle(SIGTRAP, SIG_IGN, 0), handle(SIGALRM, on, SA_RESTART), timer(200);
  tell("ignored", work(300000));
  timer(0), sigaction(SIGTRAP, NULL, &action);
  tell("still ignored", action.sa_handler == SIG_IGN), raise(SIGTRAP);
  handle(SIGTRAP, on, 0), sigemptyset(&one), sigaddset(&one, SIGTRAP), sigprocmask(SIG_BLOCK, &one, NULL), timer(200);
  tell("blocked", work(300000));
  timer(0), sigaction(SIGTRAP, NULL, &action), sigprocmask(SIG_BLOCK, NULL, &now);
  tell("still handled", action.sa_handler == on), tell("still blocked", (uint64_t)sigismember(&now, SIGTRAP));
  ticks = 0, raise(SIGTRAP), tell("before", ticks), sigprocmask(SIG_UNBLOCK, &one, NULL), tell("after", ticks);
}
static void waits(void) {
  sigset_t block, none, now;
  int n = 0;
  handle(SIGALRM, on, 0), sigemptyset(&block), sigaddset(&block, SIGALRM), sigemptyset(&none), sigprocmask(SIG_BLOCK, &block, NULL);
  timer(500);
  for (int i = 0; i < 100; i++) {
    work(1000);
    n += (i & 1 ? sigsuspend(&none) : ppoll(NULL, 0, NULL, &none)) < 0 && errno == EINTR;
    sigprocmask(SIG_BLOCK, NULL, &now);
    n += sigismember(&now, SIGALRM);
  }
  timer(0);
  tell("waits", (uint64_t)n);
}
static void *in_thread(void *given) {
  sigset_t one;
  sigemptyset(&one), sigaddset(&one, SIGALRM), pthread_sigmask(SIG_UNBLOCK, &one, NULL);
  return (void *)work((uint64_t)given);
}
static void threads(void) {
  pthread_t all[4];
  uint64_t sum = 0;
  void *result;
  sigset_t one;
  sigemptyset(&one), sigaddset(&one, SIGALRM), pthread_sigmask(SIG_BLOCK, &one, NULL);
  handle(SIGALRM, on, SA_RESTART), timer(100);
  for (int k = 0; k < 5; k++) {
    for (uint64_t i = 0; i < 4; i++)
      pthread_create(&all[i], NULL, in_thread, (void *)(30000 + i));
    for (int i = 0; i < 4; i++)
      pthread_join(all[i], &result), sum += (uint64_t)result;
  }
  timer(0);
  tell("threads", sum);
}
static void nest(int number) {
  on(number);
  raise(SIGUSR2);
}
/* Without timer, child or thread each block is executed as often in each run. */
static void repeatable(void) {
  stack_t stack = {malloc(65536), 0, 65536};
  volatile int sum = 0;
  int got = 0;
  sigset_t one;
  sigaltstack(&stack, NULL);
  handle(SIGSEGV, leave, 0), handle(SIGFPE, leave, SA_ONSTACK), handle(SIGUSR1, nest, 0), handle(SIGUSR2, on, SA_ONSTACK);
  for (volatile int i = 0; i < 30; i++) {
    if (!sigsetjmp(back, 1))
      sum += i % 3 == 2 ? divide(i, 0) : poke((int *)8, i);
    raise(SIGUSR1);
  }
  sigemptyset(&one), sigaddset(&one, SIGUSR1), sigprocmask(SIG_BLOCK, &one, NULL);
  raise(SIGUSR1), sigwait(&one, &got);
  tell("faults", (uint64_t)faults), tell("handled", ticks), tell("waited for", (uint64_t)got);
}
int main(int argc, char **argv) {
  static const struct {
    const char *name;
    void (*make)(void);
  } CASES[] = {{"counted", counted}, {"interrupted", interrupted}, {"restarted", restarted}, {"faulting", faulting}, {"nested", nested},
               {"stopped", stopped}, {"children", children},       {"queued", queued},       {"trapped", trapped},   {"waits", waits},
               {"threads", threads},   {"repeatable", repeatable}};
  for (unsigned i = 0; argc > 1 && i < sizeof CASES / sizeof *CASES; i++)
    if (!strcmp(argv[1], CASES[i].name)) {
      CASES[i].make();
      return 0;
    }
  return 64;
}
