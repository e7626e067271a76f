/* A program whose child is hostile to the runner, in the way that its word says. It works itself a thousand times, and ends with status 3. */
#define _GNU_SOURCE
#include <linux/seccomp.h>
#include <pthread.h>
#include <stdio.h>
#include <string.h>
#include <sys/mman.h>
#include <sys/prctl.h>
#include <sys/ptrace.h>
#include <sys/resource.h>
#include <sys/shm.h>
#include <sys/syscall.h>
#include <sys/wait.h>
#include <unistd.h>

enum { MOST_THREADS = 10000, AT_ONCE = 500, FORKS = 200, NOBODY = 65534, MOST_PROCESSES = 60, STACK = 16384 };

static volatile long sum;
__attribute__((noinline)) void work(long n) { sum += n; }

/* Its mappings of shared segments, of which one is its record. */
static void each_segment(int is_unmapped) {
  char line[512], name[256];
  unsigned long low, high;
  FILE *maps = fopen("/proc/self/maps", "r");
  while (maps && fgets(line, sizeof line, maps))
    if (sscanf(line, "%lx-%lx %*s %*s %*s %*s %255[^\n]", &low, &high, name) == 3 && strstr(name, "SYSV")) {
      if (is_unmapped)
        munmap((void *)low, high - low);
      else
        memset((void *)low, 0xff, high - low);
    }
}

static void *nothing(void *given) { return given; }

static void *wait_for_end(void *given) {
  pause();
  return given;
}

/* So many threads, of which some end meanwhile. */
static void threads(int most, int at_once, void *(*does)(void *)) {
  static pthread_t all[MOST_THREADS];
  pthread_attr_t small;
  pthread_attr_init(&small);
  pthread_attr_setstacksize(&small, STACK);
  for (int begun = 0, count = 0; begun < most; begun += count) {
    for (count = 0; count < at_once && !pthread_create(all + count, &small, does, NULL);)
      count++;
    for (int n = 0; n < count && does == nothing; n++)
      pthread_join(all[n], NULL);
    if (!count)
      break;
  }
}

static void forks(void) {
  for (int n = 0; n < FORKS; n++)
    if (fork() == 0)
      _exit(n & 1 ? 0 : 255);
  while (wait(NULL) > 0)
    continue;
}

/* Each process forks another one, and lives on until that has ended, until the system allows no more. Limits are not for root. */
static void fork_without_end(void) {
  struct rlimit limit = {MOST_PROCESSES, MOST_PROCESSES};
  if (!getuid() && setresuid(NOBODY, NOBODY, NOBODY))
    return;
  prctl(PR_SET_DUMPABLE, 1);
  setrlimit(RLIMIT_NPROC, &limit);
  for (pid_t child; (child = fork()) >= 0;)
    if (child) {
      waitpid(child, NULL, 0);
      return;
    }
}

/* It lets everybody trace it, names itself as its runner is named, keeps its memory from others, and allows itself nothing but to end. */
static void ask_by_prctl(void) {
  prctl(PR_SET_PTRACER, PR_SET_PTRACER_ANY, 0, 0, 0);
  prctl(PR_SET_CHILD_SUBREAPER, 1, 0, 0, 0);
  prctl(PR_SET_NAME, "vaknuhol-run", 0, 0, 0);
  prctl(PR_SET_NO_NEW_PRIVS, 1, 0, 0, 0);
  prctl(PR_SET_DUMPABLE, 0, 0, 0, 0);
  prctl(PR_SET_SECCOMP, SECCOMP_MODE_STRICT, 0, 0, 0);
}

/* It traces a child of its own, and asks to be traced. */
static void trace(void) {
  pid_t child = fork();
  if (child == 0) {
    ptrace(PTRACE_TRACEME, 0, 0, 0);
    _exit(0);
  }
  ptrace(PTRACE_ATTACH, child, 0, 0), ptrace(PTRACE_SEIZE, child, 0, 0);
  waitpid(child, NULL, 0);
  prctl(PR_SET_DUMPABLE, 0), ptrace(PTRACE_TRACEME, 0, 0, 0) && ptrace(PTRACE_ATTACH, getppid(), 0, 0);
}

static void be(const char *way) {
  if (!strcmp(way, "range"))
    each_segment(0);
  else if (!strcmp(way, "unmapped"))
    each_segment(1);
  else if (!strcmp(way, "threads"))
    threads(2 * AT_ONCE, AT_ONCE, nothing);
  else if (!strcmp(way, "waiting"))
    threads(MOST_THREADS, MOST_THREADS, wait_for_end);
  else if (!strcmp(way, "forks"))
    forks();
  else if (!strcmp(way, "endless"))
    fork_without_end();
  else if (!strcmp(way, "traced"))
    trace();
  else if (!strcmp(way, "prctl"))
    ask_by_prctl();
  else if (!strcmp(way, "setuid"))
    execl("./other", "other", NULL);
  else
    for (int file = 3; file < 1024; file++)
      close(file);
}

int main(int count, char **words) {
  for (long n = 0; n < 1000; n++)
    work(n);
  if (count > 1 && fork() == 0) {
    be(words[1]);
    work(1);
    syscall(strcmp(words[1], "prctl") ? SYS_exit_group : SYS_exit, 0);
  }
  wait(NULL);
  return 3;
}
