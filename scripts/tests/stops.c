/* Stops and continues. `order ROUNDS`: sends STOP and CONT to a child, and then waits: prints how often a stop was reported behind the continuation, and how
   often the child didn't go on. `forks ROUNDS`: sends both to each of so many forked children, about as it begins, and prints how many didn't go on. */
#define _GNU_SOURCE
#include <signal.h>
#include <stdio.h>
#include <stdlib.h>
#include <string.h>
#include <sys/mman.h>
#include <sys/wait.h>
#include <time.h>
#include <unistd.h>

enum { LOOK = 100000, LOOKS = 10000, SPREAD = 3000 };
static volatile long done;
__attribute__((noinline)) void counted(void) { done++; }

static void pause_for(long nanoseconds) {
  struct timespec pause = {0, nanoseconds};
  nanosleep(&pause, NULL);
}

static void order(int rounds) {
  volatile long *steps = mmap(NULL, 4096, PROT_READ | PROT_WRITE, MAP_SHARED | MAP_ANONYMOUS, -1, 0);
  int behind = 0, stuck = 0, status;
  pid_t child = fork();
  for (; child == 0; pause_for(LOOK)) {
    counted();
    (*steps)++;
  }
  for (int round = 0; round < rounds; round++) {
    long before, is_continued = 0, looks = 0;
    kill(child, SIGSTOP);
    for (int n = rand() % SPREAD; n > 0; n--)
      getppid();
    kill(child, SIGCONT);
    before = *steps;
    while (*steps < before + 2 && looks++ < LOOKS) {
      if (waitpid(child, &status, WNOHANG | WUNTRACED | WCONTINUED) == child) {
        behind += is_continued && WIFSTOPPED(status);
        is_continued |= WIFCONTINUED(status);
      }
      pause_for(LOOK);
    }
    stuck += *steps < before + 2;
    kill(child, SIGCONT);
  }
  kill(child, SIGKILL);
  waitpid(child, NULL, 0);
  printf("%d behind, %d stuck\n", behind, stuck);
}

/* To each child as soon as it is there, which mostly has the number behind the last one's; whoever has it, a child of ours has our group. The sender has
   another one. */
static pid_t send_to_children(volatile pid_t *last, pid_t group) {
  pid_t sender = fork();
  if (sender != 0)
    return sender;
  setpgid(0, 0);
  for (;;) {
    pid_t child = *last + 1;
    while (*last + 1 == child && getpgid(child) != group)
      continue;
    for (int n = rand() % SPREAD; n > 0; n--)
      getppid();
    if (getpgid(child) == group && kill(child, SIGSTOP) == 0)
      kill(child, SIGCONT);
    while (*last + 1 == child)
      continue;
  }
}

static void forks(int rounds) {
  volatile pid_t *last = mmap(NULL, 4096, PROT_READ | PROT_WRITE, MAP_SHARED | MAP_ANONYMOUS, -1, 0);
  int stuck = 0;
  setpgid(0, 0);
  pid_t sender = send_to_children(last, getpid());
  for (int n = 0; n < rounds; n++) {
    long looks = 0;
    pid_t child = fork();
    if (child == 0) {
      counted();
      _exit(0);
    }
    while (waitpid(child, NULL, WNOHANG) == 0 && looks++ < LOOKS)
      pause_for(LOOK);
    if (looks > LOOKS) {
      stuck++;
      kill(child, SIGCONT);
      waitpid(child, NULL, 0);
    }
    *last = child;
  }
  kill(sender, SIGKILL);
  waitpid(sender, NULL, 0);
  printf("%d stuck\n", stuck);
}

int main(int argc, char **argv) {
  if (argc < 3)
    return 8;
  if (strcmp(argv[1], "order") == 0)
    order(atoi(argv[2]));
  else
    forks(atoi(argv[2]));
  return 6;
}
