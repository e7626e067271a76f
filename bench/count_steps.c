/* How often the single steps of a program stand at each of some addresses: count_steps ADDRESSES COUNTS PROGRAM [WORD..]. COUNTS gets
   a line for each of ADDRESSES, with its count, as far as one process goes. A repeated string instruction is one step, and what a
   signal comes before, or a fault ends, is none, as the runner takes its event back.
   gcc -O1 -o count_steps count_steps.c */
#include <errno.h>
#include <signal.h>
#include <stddef.h>
#include <stdint.h>
#include <stdio.h>
#include <stdlib.h>
#include <sys/personality.h>
#include <sys/ptrace.h>
#include <sys/user.h>
#include <sys/wait.h>
#include <unistd.h>

enum { MOST = 65536 };
static uint64_t addresses[MOST], counts[MOST];
static int known;

static void refuse(const char *why) {
    perror(why);
    exit(2);
}

static int by_address(const void *a, const void *b) {
    uint64_t x = *(const uint64_t *)a, y = *(const uint64_t *)b;
    return x < y ? -1 : x > y;
}

static void read_addresses(const char *path) {
    FILE *file = fopen(path, "r");
    if (!file) refuse(path);
    while (known < MOST && fscanf(file, "%lx", &addresses[known]) == 1) known++;
    fclose(file);
    qsort(addresses, known, sizeof *addresses, by_address);
}

static void write_counts(const char *path) {
    FILE *file = fopen(path, "w");
    if (!file) refuse(path);
    for (int at = 0; at < known; at++) fprintf(file, "%lx %lu\n", addresses[at], counts[at]);
    if (fclose(file)) refuse(path);
}

static int repeats(pid_t child, uint64_t at) {
    errno = 0;
    uint64_t code = ptrace(PTRACE_PEEKTEXT, child, at, 0);
    for (int prefixed = 0; !errno && code; code >>= 8) {
        int byte = code & 0xFF;
        if (byte == 0xF2 || byte == 0xF3) prefixed = 1;
        else if (byte != 0x66 && byte != 0x67 && (byte & 0xF0) != 0x40)
            return prefixed && ((byte >= 0xA4 && byte <= 0xA7) || (byte >= 0xAA && byte <= 0xAF));
    }
    return 0;
}

static uint64_t rip_of(pid_t child) {
    errno = 0;
    uint64_t rip = ptrace(PTRACE_PEEKUSER, child, offsetof(struct user_regs_struct, rip), 0);
    if (errno) refuse("rip");
    return rip;
}

int main(int count, char **words) {
    uint64_t before = 0, steps = 0;
    int status, sent = 0;
    if (count < 4) {
        fprintf(stderr, "usage: count_steps ADDRESSES COUNTS PROGRAM [WORD..]\n");
        return 2;
    }
    read_addresses(words[1]);
    pid_t child = fork();
    if (child == 0) {
        personality(ADDR_NO_RANDOMIZE);
        ptrace(PTRACE_TRACEME, 0, 0, 0);
        execv(words[3], words + 3);
        _exit(126);
    }
    if (child < 0 || waitpid(child, &status, 0) != child || !WIFSTOPPED(status)) refuse(words[3]);
    ptrace(PTRACE_SETOPTIONS, child, 0, PTRACE_O_EXITKILL);
    for (;;) {
        uint64_t rip = rip_of(child);
        int again = rip == before && repeats(child, rip);
        uint64_t *found = again || sent ? NULL : bsearch(&rip, addresses, known, sizeof rip, by_address);
        if (found) counts[found - addresses]++;
        steps += !again;
        before = rip;
        if (ptrace(PTRACE_SINGLESTEP, child, 0, sent)) refuse("step");
        if (waitpid(child, &status, 0) != child) refuse("wait");
        if (!WIFSTOPPED(status)) break;
        sent = WSTOPSIG(status) == SIGTRAP ? 0 : WSTOPSIG(status);
        if (sent && found && rip_of(child) == rip) counts[found - addresses]--;
    }
    write_counts(words[2]);
    fprintf(stderr, "%lu steps\n", steps);
    return WIFEXITED(status) ? WEXITSTATUS(status) : 128 + WTERMSIG(status);
}
