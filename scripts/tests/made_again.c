/* Calls of the kernel, all by one instruction, at `kernel`, that signals interrupt; its first word says how. It prints how often it made one, however often the
   kernel began it, and what the calls and the signals came to. */
#define _GNU_SOURCE
#include <errno.h>
#include <pthread.h>
#include <setjmp.h>
#include <signal.h>
#include <stdint.h>
#include <stdio.h>
#include <stdlib.h>
#include <string.h>
#include <sys/epoll.h>
#include <sys/sem.h>
#include <sys/syscall.h>
#include <sys/time.h>
#include <sys/wait.h>
#include <time.h>
#include <unistd.h>
long make(long number, long a, long b, long c, long d);
__asm__(".globl make\n.type make, @function\nmake: mov %rdi, %rax\nmov %rsi, %rdi\nmov %rdx, %rsi\nmov %rcx, %rdx\nmov %r8, %r10\njmp kernel\n"
        ".size make, . - make\n.globl kernel\n.type kernel, @function\nkernel: syscall\nret\n.size kernel, . - kernel\n");
enum { ROUNDS = 12, STACK = 65536 };
static long calls, again;
static volatile long came;
static int ends[2];
static sigjmp_buf out;
static void on(int number) { came += number > 0; }
static void leave(int number) { siglongjmp(out, number); }
static void handle(int number, void (*by)(int), int flags) {
  struct sigaction action = {.sa_handler = by, .sa_flags = flags};
  sigaction(number, &action, NULL);
}
static void timer(long us) {
  struct itimerval each = {{0, us}, {0, us}};
  setitimer(ITIMER_REAL, &each, NULL);
}
static long call(long number, long a, long b, long c, long d) {
  long answer = make(number, a, b, c, d);
  calls++;
  again += answer == -EINTR;
  return answer;
}
/* A child sends signals to a reader, each after a pause, and then what it waits for. */
static void sent(const int *numbers, int count) {
  pid_t reader = getpid();
  if (fork())
    return;
  for (int n = 0; n < count; n++) {
    usleep(3000);
    kill(reader, numbers[n]);
  }
  usleep(3000);
  _exit(write(ends[1], "x", 1) != 1);
}
static long read_one(void) {
  char c;
  return call(SYS_read, ends[0], (long)&c, 1, 0);
}
static const int IDLE[] = {SIGURG, SIGWINCH, SIGUSR1, SIGCONT, SIGURG}, ALARMS[] = {SIGALRM, SIGALRM, SIGALRM};
/* Signals that do nothing, the end of a child among them. */
static void ignored(void) {
  signal(SIGUSR1, SIG_IGN);
  for (int n = 0; n < ROUNDS; n++) {
    sent(IDLE, 5);
    if (n % 2 && fork() == 0)
      _exit(0);
    came += read_one();
  }
}
static void handled(void) {
  handle(SIGALRM, on, SA_RESTART);
  for (int n = 0; n < ROUNDS; n++) {
    sent(ALARMS, 3);
    read_one();
  }
}
/* On another stack, with idle signals in between. */
static void stacked(void) {
  stack_t other = {.ss_sp = malloc(STACK), .ss_size = STACK};
  sigaltstack(&other, NULL);
  handle(SIGALRM, on, SA_RESTART | SA_ONSTACK | SA_NODEFER);
  const int both[] = {SIGURG, SIGALRM, SIGWINCH, SIGALRM, SIGURG};
  for (int n = 0; n < ROUNDS; n++) {
    sent(both, 5);
    read_one();
  }
}
/* Each call that the handler ends is one, and made again by the program. */
static void ended(void) {
  handle(SIGALRM, on, 0);
  for (int n = 0; n < ROUNDS; n++) {
    sent(ALARMS, 3);
    while (read_one() == -EINTR)
      continue;
  }
}
/* A handler that leads elsewhere: the call was never made. */
static void left(void) {
  handle(SIGALRM, leave, SA_RESTART | SA_NODEFER);
  for (volatile int n = 0; n < ROUNDS; n++)
    if (sigsetjmp(out, 1)) {
      came++;
    } else {
      if (fork() == 0) {
        usleep(3000);
        kill(getppid(), SIGALRM);
        _exit(0);
      }
      read_one();
    }
}
/* The kernel begins these again whatever the handler is. */
static void forks(void) {
  handle(SIGALRM, on, 0);
  timer(150);
  for (int n = 0; n < 40 * ROUNDS; n++) {
    long child = call(SYS_fork, 0, 0, 0, 0);
    if (child == 0)
      _exit(3);
    while (waitpid((pid_t)child, NULL, 0) < 0)
      continue;
  }
  timer(0);
  came = came > 10;
}
/* Calls that the kernel goes on with in its own way. */
static void sleeps(void) {
  struct timespec span = {0, 20000000};
  signal(SIGUSR1, SIG_IGN);
  for (int n = 0; n < ROUNDS; n++) {
    sent(IDLE, 4);
    came += call(SYS_nanosleep, (long)&span, 0, 0, 0);
    read_one();
  }
}
/* A semaphore's, which a child gives after three signals. */
static void take_one(const int *numbers) {
  int semaphore = semget(IPC_PRIVATE, 1, 0600);
  struct sembuf give = {.sem_op = 1}, take = {.sem_op = -1};
  if (fork() == 0) {
    for (int n = 0; n < 3; n++) {
      usleep(3000);
      kill(getppid(), numbers[n]);
    }
    usleep(3000);
    _exit(semop(semaphore, &give, 1));
  }
  came += call(SYS_semop, semaphore, (long)&take, 1, 0);
  semctl(semaphore, 0, IPC_RMID);
}
/* Calls that end with EINTR however the kernel begins them: signals that do nothing never come to the original. */
static void waits(void) {
  int poll = epoll_create1(0);
  struct epoll_event event = {.events = EPOLLIN};
  epoll_ctl(poll, EPOLL_CTL_ADD, ends[0], &event);
  sigset_t alarms;
  sigemptyset(&alarms), sigaddset(&alarms, SIGALRM);
  sigprocmask(SIG_BLOCK, &alarms, NULL);
  signal(SIGUSR1, SIG_IGN);
  const int idle[] = {SIGURG, SIGWINCH, SIGUSR1, SIGALRM};
  for (int n = 0; n < ROUNDS; n++) {
    sent(idle, 4);
    came += call(SYS_rt_sigtimedwait, (long)&alarms, 0, 0, 8);
    sent(idle, 3);
    came += call(SYS_epoll_wait, poll, (long)&event, 1, -1);
    read_one(), read_one();
    take_one(idle);
  }
}
static void *reader(void *given) {
  for (int n = 0; n < 3; n++)
    *(long *)given += read_one();
  return NULL;
}
/* Threads take turns; a thread that doesn't read has the handlers, too. */
static void threads(void) {
  pthread_t one;
  long answers = 0;
  handle(SIGALRM, on, SA_RESTART);
  for (int n = 0; n < ROUNDS; n++) {
    pthread_create(&one, NULL, reader, &answers);
    for (int turn = 0; turn < 3; turn++) {
      for (int times = 0; times < 3; times++) {
        usleep(2000);
        pthread_kill(one, SIGALRM);
      }
      usleep(2000);
      if (write(ends[1], "x", 1) != 1)
        exit(7);
    }
    pthread_join(one, NULL);
  }
}
static void *ender(void *first) {
  for (int n = 0; n < 40; n++) {
    pthread_kill(*(pthread_t *)first, SIGALRM);
    usleep(20);
  }
  _exit(5);
}
/* Another thread ends the process while signals come to the first one. */
static void exits(void) {
  pthread_t first = pthread_self(), other;
  handle(SIGALRM, on, SA_RESTART);
  pthread_create(&other, NULL, ender, &first);
  read_one();
}
static const struct {
  const char *name;
  void (*run)(void);
} CASES[] = {{"ignored", ignored}, {"handled", handled}, {"stacked", stacked}, {"ended", ended}, {"left", left},
             {"forks", forks},     {"sleeps", sleeps},   {"waits", waits},     {"threads", threads}, {"exits", exits}};
int main(int argc, char **argv) {
  if (pipe(ends))
    return 9;
  for (size_t n = 0; argc > 1 && n < sizeof CASES / sizeof *CASES; n++)
    if (!strcmp(argv[1], CASES[n].name))
      CASES[n].run();
  printf("%ld %ld %ld\n", calls, again, came);
  return 0;
}
