#include "threads.h"

#include <sys/ptrace.h>

#include "facts.h"
#include "refusing.h"

static struct thread all[MOST_THREADS];
static int count;

struct thread *add_thread(pid_t tid) {
    if (count == MOST_THREADS)
        die("the program has too many threads");
    all[count] = (struct thread){.tid = tid, .number = count + 1, .state = BORN};
    return &all[count++];
}

struct thread *thread_of(pid_t tid) {
    for (int at = count - 1; at >= 0; at--)
        if (all[at].tid == tid && all[at].state != GONE)
            return &all[at];
    return 0;
}

struct thread *thread_number(int number) {
    return &all[number];
}

int thread_count(void) { return count; }

int living_count(void) {
    int living = 0;
    for (int at = 0; at < count; at++)
        living += all[at].state != GONE;
    return living;
}

pid_t living(void) {
    pid_t found = 0;
    for (int at = 0; at < count; at++)
        if (all[at].state == READY)
            return all[at].tid;
        else if (all[at].state != GONE)
            found = all[at].tid;
    return found;
}

void step(const struct thread *thread, int number) {
    if (ptrace(PTRACE_SINGLESTEP, thread->tid, 0, number) && errno != ESRCH)
        die("the program can't be stepped");
}

void start(char **command) {
    pid_t tid = start_program(command, PTRACE_O_TRACEEXEC | PTRACE_O_TRACECLONE);
    struct thread *first = add_thread(tid);
    get_regs(tid, &first->regs);
    if (!change_vector(tid, first->regs.rsp, told_to_original(), true))
        die("the program's memory can't be changed");
    first->state = READY;
}
