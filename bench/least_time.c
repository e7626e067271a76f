/* The least time that a program takes, in milliseconds, from before it is started until it has ended, of many runs in turn of each of
   several programs without words: least_time RUNS PROGRAM.. Their output goes nowhere. gcc -O1 -o least_time least_time.c */
#include <fcntl.h>
#include <stdio.h>
#include <stdlib.h>
#include <sys/wait.h>
#include <time.h>
#include <unistd.h>

static double now(void) {
    struct timespec at;
    clock_gettime(CLOCK_MONOTONIC, &at);
    return at.tv_sec * 1e3 + at.tv_nsec / 1e6;
}

static double run(char *program, int *status) {
    char *words[] = { program, NULL };
    double start = now();
    pid_t child = vfork();
    if (!child) {
        int none = open("/dev/null", O_RDWR);
        dup2(none, 0);
        dup2(none, 1);
        dup2(none, 2);
        execv(program, words);
        _exit(126);
    }
    waitpid(child, status, 0);
    return now() - start;
}

int main(int count, char **words) {
    double least[count];
    int status[count];
    if (count < 3) {
        fprintf(stderr, "usage: least_time RUNS PROGRAM..\n");
        return 2;
    }
    for (int at = 2; at < count; at++) least[at] = 1e9;
    for (int left = atoi(words[1]); left > 0; left--)
        for (int at = 2; at < count; at++) {
            double took = run(words[at], &status[at]);
            if (took < least[at]) least[at] = took;
        }
    for (int at = 2; at < count; at++)
        printf("%10.3f ms  status %d  %s\n", least[at], WIFEXITED(status[at]) ? WEXITSTATUS(status[at]) : 128 + WTERMSIG(status[at]), words[at]);
    return 0;
}
