/* Threads that work without an end, until another one crashes as the first word says, or the program ends in another way.
   usage: crashing [filtered | apart | forked] HOW [EVENTS]
   filtered: it begins again first, with a filter on system calls. apart: so it does, with segments of shared memory of its own. forked: in a child, for
   which the first process waits; with EVENTS it stays then. With `late`, and with `both`, which has two crashes, no thread works: the runner is stopped
   before, and goes on after so many calls of `work`. */
#define _GNU_SOURCE
#include <linux/filter.h>
#include <linux/seccomp.h>
#include <pthread.h>
#include <sched.h>
#include <setjmp.h>
#include <signal.h>
#include <stdio.h>
#include <stdlib.h>
#include <string.h>
#include <sys/prctl.h>
#include <sys/syscall.h>
#include <sys/wait.h>
#include <unistd.h>

enum { WORKERS = 3, A_WHILE = 100000, FEW = 30 };
static const char *how = "";
static volatile long sums[WORKERS], zero, result;
static volatile pid_t crashing[2];
static pthread_barrier_t all;
static sigjmp_buf back;

static long work(long n) { return n & 1 ? 3 * n + 1 : n / 2; }
static long share(long n, long by) { return n / by; }
static long fetch(const volatile long *from) { return *from + 1; }
static long total(const volatile long *from, long count) {
    long sum = 0;
    for (long n = 0; n < count; n++)
        sum += from[n];
    return sum;
}
static long measure(const char *text) { return (long)strlen(text) + 1; }
static void leap(void (*to)(void)) { to(), result++; }
static void give_up(void) { abort(); }
static void refuse(void) { raise(SIGSYS); }
static long deepen(long n) { return zero ? n : n + deepen(n + 1) % 3; }
static void on_fault(int number) { siglongjmp(back, number); }

static void *worker(void *sum) {
    for (long n = 1;; n++)
        *(volatile long *)sum += share(work(n), 1 + (n & 7));
    return NULL;
}

static void labour(long times) {
    for (volatile long n = 0; n < times; n++)
        result = work(n);
}

static void crash(const char *by) {
    if (!strcmp(by, "null"))
        result = fetch(NULL);
    else if (!strcmp(by, "leap"))
        leap((void (*)(void))zero);
    else if (!strcmp(by, "loop"))
        result = total(NULL, 5 + zero);
    else if (!strcmp(by, "library"))
        result = measure((const char *)zero);
    else if (!strcmp(by, "far"))
        result = fetch((long *)0x8000000000000000);
    else if (!strcmp(by, "abort"))
        give_up();
    else if (!strcmp(by, "raise"))
        refuse();
    else if (!strcmp(by, "divide"))
        result = share(1, zero);
    else if (!strcmp(by, "deep"))
        result = deepen(1);
}

static void *crasher(void *unused) {
    labour(A_WHILE);
    if (!strcmp(how, "caught")) {
        signal(SIGSEGV, on_fault);
        if (!sigsetjmp(back, 1))
            result = fetch(NULL);
        labour(A_WHILE);
        crash("divide");
    }
    crash(how);
    if (!strcmp(how, "exit"))
        exit(3);
    pause();
    return unused;
}

static char state_of(const char *path) {
    char text[512] = "";
    FILE *file = fopen(path, "r");
    size_t length = file ? fread(text, 1, sizeof text - 1, file) : 0;
    const char *name_end = length ? strrchr(text, ')') : NULL;
    if (file)
        fclose(file);
    return name_end ? name_end[2] : 0;
}

static void await_state(const char *form, pid_t pid, char state) {
    char path[64];
    snprintf(path, sizeof path, form, pid);
    while (state_of(path) != state)
        usleep(100);
}

static pid_t runner(void) {
    char line[256];
    pid_t pid = 0;
    FILE *file = fopen("/proc/self/status", "r");
    while (file && fgets(line, sizeof line, file))
        sscanf(line, "TracerPid: %d", &pid);
    return pid;
}

static void *late_crasher(void *number) {
    crashing[(long)number] = (pid_t)syscall(SYS_gettid);
    pthread_barrier_wait(&all);
    pthread_barrier_wait(&all);
    labour(FEW);
    crash(number ? "divide" : "null");
    return NULL;
}

/* So that it is known what other threads do between a crash and the runner's seeing it. */
static void crash_late(long threads, long events) {
    pthread_t thread;
    pid_t pid = runner();
    pthread_barrier_init(&all, NULL, (unsigned)threads + 1);
    for (long number = 0; number < threads; number++)
        pthread_create(&thread, NULL, late_crasher, (void *)number);
    pthread_barrier_wait(&all);
    kill(pid, SIGSTOP);
    await_state("/proc/%d/stat", pid, 'T');
    pthread_barrier_wait(&all);
    for (long number = 0; number < threads; number++)
        await_state("/proc/self/task/%d/stat", crashing[number], 't');
    labour(events);
    kill(pid, SIGCONT);
    pause();
}

/* The runner shares no memory with a process that has a filter which the runner may not suspend, nor with one that has a namespace of segments. */
static int begin_again(char **words) {
    struct sock_filter allow = BPF_STMT(BPF_RET | BPF_K, SECCOMP_RET_ALLOW);
    struct sock_fprog filter = {1, &allow};
    int is_apart = !strcmp(words[0], "apart");
    if (is_apart ? !unshare(CLONE_NEWIPC) || !unshare(CLONE_NEWUSER | CLONE_NEWIPC)
                 : !prctl(PR_SET_NO_NEW_PRIVS, 1, 0, 0, 0) && !prctl(PR_SET_SECCOMP, SECCOMP_MODE_FILTER, &filter))
        execv("/proc/self/exe", words);
    return 64;
}

int main(int count, char **words) {
    pthread_t thread;
    if (count > 2 && (!strcmp(words[1], "filtered") || !strcmp(words[1], "apart")))
        return begin_again(words + 1);
    if (count > 2 && !strcmp(words[1], "forked")) {
        words++;
        if (fork())
            return wait(NULL) < 0 || (count > 3 && pause());
    }
    how = count > 1 ? words[1] : "";
    if (!strcmp(how, "late") || !strcmp(how, "both"))
        crash_late(strcmp(how, "late") ? 2 : 1, atol(words[2]));
    for (long number = 0; number < WORKERS; number++)
        pthread_create(&thread, NULL, worker, (void *)&sums[number]);
    pthread_create(&thread, NULL, crasher, NULL);
    if (!strcmp(how, "waits"))
        puts("works"), fflush(stdout);
    pthread_join(thread, NULL);
    return 0;
}
