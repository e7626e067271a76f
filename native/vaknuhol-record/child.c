#define _GNU_SOURCE
#include "child.h"

#include <fcntl.h>
#include <stdio.h>
#include <string.h>
#include <sys/ptrace.h>
#include <sys/wait.h>
#include <unistd.h>

#include "refusing.h"

static pid_t child; /* 0 where it has ended */
static int pagemap;
static const char *why_ended = "limit";

pid_t tracee(void) { return child; }

bool is_running(void) { return child > 0 && strcmp(why_ended, "exec"); }

const char *proc_path(const char *name) {
    static char path[40];
    snprintf(path, sizeof path, "/proc/%d/%s", child, name);
    return path;
}

bool read_pagemap(uint64_t page, uint64_t *entries, size_t count) {
    return pread(pagemap, entries, count * sizeof *entries, page * sizeof *entries) == (ssize_t)(count * sizeof *entries);
}

int ends_by(const char *why) {
    why_ended = why;
    return 0;
}

const char *ending(void) { return why_ended; }

void get_info(siginfo_t *info) {
    if (ptrace(PTRACE_GETSIGINFO, child, 0, info))
        die("the signal can't be read");
}

void set_info(const siginfo_t *info) {
    if (ptrace(PTRACE_SETSIGINFO, child, 0, info))
        die("the signal can't be sent");
}

int go_on(int number) {
    static char why[40];
    int status;
    if (ptrace(PTRACE_SINGLESTEP, child, 0, number) || waitpid(child, &status, 0) != child)
        die("the program can't be stepped");
    if (WIFSTOPPED(status) && status >> 16 == PTRACE_EVENT_EXEC)
        return ends_by("exec");
    if (WIFSTOPPED(status))
        return WSTOPSIG(status);
    forget_started();
    child = 0;
    snprintf(why, sizeof why, WIFEXITED(status) ? "exit %d" : "signal %d", WIFEXITED(status) ? WEXITSTATUS(status) : WTERMSIG(status));
    return ends_by(why);
}

void start(char **command) {
    child = start_program(command, PTRACE_O_TRACEEXEC);
    pagemap = open(proc_path("pagemap"), O_RDONLY);
}

uint64_t call(const struct user_regs_struct *regs, uint64_t number, uint64_t argument) {
    static const uint8_t CODE[] = {0x0f, 0x05};
    struct user_regs_struct other = *regs;
    uint8_t kept[sizeof CODE];
    int status;
    if (!read_memory(child, regs->rip, kept, sizeof kept))
        die("the entry point can't be read");
    if (!write_code(child, regs->rip, CODE, sizeof CODE))
        die("the program's memory can't be changed");
    other.rax = number, other.rdi = argument;
    set_regs(child, &other);
    if (ptrace(PTRACE_SINGLESTEP, child, 0, 0) || waitpid(child, &status, 0) != child || !WIFSTOPPED(status))
        die("the program can't be stepped");
    get_regs(child, &other);
    if (!write_code(child, regs->rip, kept, sizeof kept))
        die("the program's memory can't be changed");
    return other.rax;
}
