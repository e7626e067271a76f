#include "jobs.h"

#include <errno.h>
#include <signal.h>
#include <stdio.h>
#include <stdlib.h>
#include <sys/wait.h>
#include <unistd.h>

struct order read_order(int count, char **words) {
    struct order order = { .jobs = 1, .mutant = "" };
    if (count < 4 || count > 6) {
        fprintf(stderr, "usage: %s E9TOOL SEED COUNT [JOBS [MUTANT]]\n", words[0]);
        exit(2);
    }
    order.program = words[1];
    order.seed = strtoull(words[2], NULL, 10);
    order.count = strtoull(words[3], NULL, 10);
    if (count > 4)
        order.jobs = (unsigned)strtoul(words[4], NULL, 10);
    if (count > 5)
        order.mutant = words[5];
    order.jobs = order.jobs < 1 ? 1 : order.jobs > JOBS_MOST ? JOBS_MOST : order.jobs;
    return order;
}

uint64_t first_of(const struct order *order, unsigned job) { return order->count * job / order->jobs; }

static volatile sig_atomic_t stopping;
static volatile pid_t pids[JOBS_MOST]; /* of the jobs, in the process that began them */

/* In that process it is handed on to the jobs. */
static void on_stop(int sig) {
    stopping = 1;
    for (int job = 0; job < JOBS_MOST; job++)
        if (pids[job] > 0)
            kill(pids[job], sig);
}

int is_stopping(void) { return stopping; }

unsigned run_jobs(const struct order *order, void (*work)(const struct order *order, unsigned job)) {
    unsigned failed = 0;
    /* It may come while a guest's code runs, which has no stack for it. */
    struct sigaction action = { .sa_handler = on_stop, .sa_flags = SA_RESTART | SA_ONSTACK };
    fflush(stdout);
    if (sigaction(SIGTERM, &action, NULL)) {
        perror("hardware: sigaction");
        exit(2);
    }
    for (unsigned job = 0; job < order->jobs; job++) {
        pid_t pid = fork();
        if (pid < 0) {
            perror("hardware: fork");
            exit(2);
        }
        if (pid == 0) {
            for (unsigned other = 0; other < job; other++)
                pids[other] = 0;
            work(order, job);
            fflush(stdout);
            _exit(0);
        }
        pids[job] = pid;
    }
    for (int status;;) {
        pid_t pid = wait(&status);
        if (pid < 0 && errno == EINTR)
            continue;
        if (pid < 0)
            break;
        failed += !(WIFEXITED(status) && WEXITSTATUS(status) == 0);
    }
    if (failed)
        fprintf(stderr, "hardware: %u jobs of %u have failed\n", failed, order->jobs);
    return failed;
}
