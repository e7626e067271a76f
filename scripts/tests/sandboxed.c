/* A process that gives up what a runner would need to map memory in it, and then starts others. Its first word says what: `filter` system calls but the few
   that it uses, `again` the same and then the program in its place, `closed` the same and that others read its memory, `memory` more of it than it has,
   `softly` so that it could take that back: its child says what the limit is. */
#define _GNU_SOURCE
#include <linux/filter.h>
#include <linux/seccomp.h>
#include <stddef.h>
#include <stdio.h>
#include <stdlib.h>
#include <string.h>
#include <sys/prctl.h>
#include <sys/resource.h>
#include <sys/syscall.h>
#include <sys/wait.h>
#include <unistd.h>
#define ALLOW BPF_STMT(BPF_RET | BPF_K, SECCOMP_RET_ALLOW)
#define ALLOWED(call) BPF_JUMP(BPF_JMP | BPF_JEQ | BPF_K, call, 0, 1), ALLOW
#define REFUSED(call) BPF_JUMP(BPF_JMP | BPF_JEQ | BPF_K, call, 0, 1), BPF_STMT(BPF_RET | BPF_K, SECCOMP_RET_KILL_PROCESS)
#define NUMBER BPF_STMT(BPF_LD | BPF_W | BPF_ABS, offsetof(struct seccomp_data, nr))
static volatile unsigned long done;
static void (*volatile chosen)(void);
__attribute__((noinline)) void counted(void) { done = done * 31 + 7; }
static void times(int n) {
  while (n-- > 0)
    chosen();
}
static void say(const char *who) {
  char text[64];
  int length = snprintf(text, sizeof text, "%s %lx\n", who, done);
  if (write(1, text, (size_t)length) != length)
    _exit(8);
}
static void filter(struct sock_filter *code, size_t length) {
  struct sock_fprog whole = {(unsigned short)length, code};
  prctl(PR_SET_NO_NEW_PRIVS, 1, 0, 0, 0);
  if (prctl(PR_SET_SECCOMP, SECCOMP_MODE_FILTER, &whole))
    _exit(9);
}
static void give_up(const char *what) {
  struct sock_filter few[] = {NUMBER,
                              ALLOWED(SYS_write),
                              ALLOWED(SYS_fork),
                              ALLOWED(SYS_wait4),
                              ALLOWED(SYS_exit_group),
                              BPF_STMT(BPF_RET | BPF_K, SECCOMP_RET_KILL_PROCESS)};
  struct sock_filter most[] = {NUMBER, REFUSED(SYS_shmat), REFUSED(SYS_mmap), ALLOW};
  struct rlimit limit;
  getrlimit(RLIMIT_AS, &limit);
  limit.rlim_cur = 1 << 20;
  if (!strcmp(what, "filter"))
    filter(few, sizeof few / sizeof *few);
  if (!strcmp(what, "closed"))
    prctl(PR_SET_DUMPABLE, 0);
  if (!strcmp(what, "again") || !strcmp(what, "closed"))
    filter(most, sizeof most / sizeof *most);
  if (!strcmp(what, "memory"))
    limit.rlim_max = limit.rlim_cur;
  if (!strcmp(what, "memory") || !strcmp(what, "softly"))
    setrlimit(RLIMIT_AS, &limit);
}
static void say_limit(void) {
  struct rlimit limit;
  getrlimit(RLIMIT_AS, &limit);
  done = limit.rlim_cur;
  say("limit");
}
int main(int argc, char **argv) {
  const char *what = argc > 1 ? argv[1] : "";
  int status = 0;
  chosen = counted;
  times(1);
  if (strcmp(what, "on") != 0)
    give_up(what);
  if (!strcmp(what, "again"))
    return execl("/proc/self/exe", argv[0], "on", NULL);
  times(2);
  say("parent");
  long child = syscall(SYS_fork);
  if (child == 0) {
    times(4);
    say("child");
    if (!strcmp(what, "memory") || !strcmp(what, "softly"))
      say_limit();
    if (syscall(SYS_fork) == 0) {
      times(8);
      say("grandchild");
      syscall(SYS_exit_group, 0);
    }
    syscall(SYS_wait4, -1, NULL, 0, NULL);
    syscall(SYS_exit_group, 4);
  }
  syscall(SYS_wait4, child, &status, 0, NULL);
  done = (unsigned long)status;
  say("ended with");
  times(16);
  syscall(SYS_exit_group, 5);
}
