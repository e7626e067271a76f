/* vaknuhol-step LIST STEPS OUT PROGRAM ARGUMENTS..: runs a program under single steps, and writes to OUT what doesn't fit its list:

     steps N            how many steps were made
     ended S            the exit status, or 128 and the number of the signal that ended it
     stopped            the steps were made, and the program was let run on, or it was killed where it can't
     unlisted A         an instruction was executed that is no listed start (hexadecimal, ascending)
     read LO HI         listed bytes that were read as data, from LO on and below HI
     maps LO HI         memory was mapped at this fixed place
     shares A A         at A a thread was made, or a process that runs in the same memory at once
     traps A A          the program had the trap flag at A first, as one has that steps itself
     restarts LO HI     the kernel was told of this restartable sequence

   Only the process that is started is stepped, and of it the first thread; children and other threads run as they are. With STEPS 0 the
   whole run is made. The status is 0 wherever OUT is written. */
#include <signal.h>
#include <stdio.h>
#include <stdlib.h>
#include <sys/ptrace.h>
#include <sys/wait.h>
#include <unistd.h>

#include "refusing.h"
#include "step.h"

const struct refusal refusal = {3, "there is no memory for the text"};

static pid_t start(char **words) {
    pid_t process = fork();
    if (process < 0)
        refuse("no process can be made: %m");
    if (process)
        return process;
    if (ptrace(PTRACE_TRACEME, 0, NULL, NULL))
        refuse("no process can be traced here: %m");
    execv(words[0], words);
    refuse("%s: %m", words[0]);
}

/* The next stop of a process; whether it has ended. */
static bool has_ended(pid_t process, int *told) {
    while (waitpid(process, told, __WALL) < 0)
        if (errno != EINTR)
            refuse("the process is lost: %m");
    return !WIFSTOPPED(*told);
}

/* No wait status: the process is stopped. */
#define STOPPED (-1)

/* Steps up to an end, or so many times; how often. `told` is how it ended, STOPPED where it is stopped. */
static unsigned long step_through(struct text *text, pid_t process, unsigned long most, int *told) {
    unsigned long steps = 0;
    int number = 0;
    if (has_ended(process, told))
        return 0;
    while (!most || steps < most) {
        struct user_regs_struct registers;
        if (!number && !ptrace(PTRACE_GETREGS, process, NULL, &registers)) {
            if (registers.rip >= text->lo && registers.rip < text->hi)
                text->seen[registers.rip - text->lo] |= SEEN_AT;
            watch_state(process, &registers);
            if (mark_reads(text, process, &registers))
                watch_call(process, &registers);
            steps++;
        }
        if (ptrace(PTRACE_SINGLESTEP, process, NULL, number) && errno != ESRCH)
            refuse("no step can be made: %m");
        if (has_ended(process, told))
            return steps;
        number = WSTOPSIG(*told) == SIGTRAP ? 0 : WSTOPSIG(*told);
    }
    *told = STOPPED;
    return steps;
}

static void write_told(const struct text *text, FILE *out) {
    for (uint32_t at = 0; at < text->hi - text->lo; at++)
        if (text->seen[at] & SEEN_AT && !(text->listed[at] & START))
            fprintf(out, "unlisted %x\n", text->lo + at);
    for (uint32_t at = 0, end; at < text->hi - text->lo; at = end) {
        for (end = at; end < text->hi - text->lo && text->seen[end] & SEEN_READ; end++)
            continue;
        if (end > at)
            fprintf(out, "read %x %x\n", text->lo + at, text->lo + end);
        else
            end = at + 1;
    }
}

int main(int count, char **words) {
    struct text text;
    char *end;
    int told;
    if (count < 5)
        refuse("usage: vaknuhol-step LIST STEPS OUT PROGRAM ARGUMENTS..");
    unsigned long most = strtoul(words[2], &end, 10);
    if (*end || !*words[2])
        refuse("%s is no number of steps", words[2]);
    read_text(&text, words[1]);
    pid_t process = start(words + 4);
    unsigned long steps = step_through(&text, process, most, &told);
    FILE *out = fopen(words[3], "w");
    if (!out)
        refuse("%s: %m", words[3]);
    fprintf(out, "steps %lu\n", steps);
    if (told != STOPPED)
        fprintf(out, "ended %d\n", WIFEXITED(told) ? WEXITSTATUS(told) : 128 + WTERMSIG(told));
    else
        fprintf(out, "stopped\n");
    write_told(&text, out);
    write_events(out);
    if (fclose(out))
        refuse("%s: %m", words[3]);
    if (told == STOPPED && (ptrace(PTRACE_DETACH, process, NULL, NULL) || has_ended(process, &told)))
        kill(process, SIGKILL);
    return 0;
}
