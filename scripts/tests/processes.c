/* Forks and execs as its first word says; every process calls `work` a number of times that no other sum has. */
#include <signal.h>
#include <stdio.h>
#include <stdlib.h>
#include <string.h>
#include <sys/wait.h>
#include <unistd.h>
#define SELF "/proc/self/exe"
static volatile int done;
void work(void) { done++; }
static void times(int n) {
  while (n-- > 0)
    work();
}
/* Two forks and a session of its own: the daemon works on when the first process has ended. */
static int begin_daemon(void) {
  times(1);
  if (fork() == 0) {
    setsid();
    times(2);
    if (fork() == 0) {
      usleep(300000);
      times(4);
    }
    _exit(0);
  }
  return 3;
}
/* A subshell in a subshell, a program that isn't there and one that is, and at last another one in its own place. */
static int be_shell(void) {
  times(1);
  if (fork() == 0) {
    times(2);
    if (fork() == 0) {
      times(4);
      _exit(0);
    }
    wait(NULL);
    _exit(0);
  }
  wait(NULL);
  if (vfork() == 0) {
    times(8);
    execl("/gone", "gone", NULL);
    execl("/bin/true", "true", NULL);
    _exit(1);
  }
  wait(NULL);
  if (fork() == 0) {
    times(16);
    execl(SELF, "again", "last", NULL);
    _exit(1);
  }
  wait(NULL);
  times(64);
  return execl(SELF, "again", "last", NULL);
}
static void interrupted(int number) {
  static const char text[] = "signal\n";
  write(1, text, sizeof text - 1);
  if (number != SIGUSR1)
    _exit(9);
}
/* A letter each ten milliseconds, until a signal ends it. */
static int be_slow(void) {
  signal(SIGINT, interrupted);
  signal(SIGTERM, interrupted);
  signal(SIGUSR1, interrupted);
  printf("%d\n", getpid());
  fflush(stdout);
  for (;;) {
    work();
    write(1, ".", 1);
    usleep(10000);
  }
}
int main(int argc, char **argv) {
  const char *how = argc > 1 ? argv[1] : "";
  if (strcmp(how, "daemon") == 0)
    return begin_daemon();
  if (strcmp(how, "shell") == 0)
    return be_shell();
  if (strcmp(how, "slow") == 0)
    return be_slow();
  if (strcmp(how, "last") == 0)
    times(32);
  if (strcmp(how, "pipe") == 0)
    for (;;)
      if (puts("line") < 0)
        return 8;
  return 0;
}
