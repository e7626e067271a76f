/* What a command takes: usage COMMAND.. runs it, and writes a last line of standard error: its status, microseconds of the processor and
   by the clock, and its peak memory in KiB. A process that starts counts the memory of the one that started it, so this one is
   small: gcc -O1 -static -o usage usage.c */
#include <stdio.h>
#include <sys/resource.h>
#include <sys/wait.h>
#include <time.h>
#include <unistd.h>

static long microseconds(void) {
    struct timespec at;
    clock_gettime(CLOCK_MONOTONIC, &at);
    return at.tv_sec * 1000000 + at.tv_nsec / 1000;
}

static long spent(struct timeval at) { return at.tv_sec * 1000000 + at.tv_usec; }

int main(int count, char **words) {
    struct rusage used;
    int status;
    if (count < 2)
        return 2;
    long begun = microseconds();
    pid_t child = vfork();
    if (!child) {
        execvp(words[1], words + 1);
        _exit(126);
    }
    if (wait4(child, &status, 0, &used) != child)
        return 2;
    long ended = microseconds();
    fprintf(stderr, "\n%d %ld %ld %ld\n", WIFEXITED(status) ? WEXITSTATUS(status) : 128 + WTERMSIG(status),
            spent(used.ru_utime) + spent(used.ru_stime), ended - begun, used.ru_maxrss);
    return 0;
}
