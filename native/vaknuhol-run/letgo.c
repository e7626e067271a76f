#include "run.h"

void make_runner_let_go(pid_t pid) {
    enum { PAUSE = 1000, ASK_AGAIN = 100, MOST_PAUSES = 60000 }; /* microseconds; one that just begins or ends something isn't let go at once */
    pid_t runner = atoi(status_of(pid, "\nTracerPid:"));
    if (!runner || strncmp(status_of(runner, "Name:"), "\tvaknuhol-run\n", 14))
        errx(REFUSED, "%d: %s", pid, kill(pid, 0) && errno == ESRCH ? "there is no such process" : "it runs under no vaknuhol-run");
    if (!strncmp(status_of(pid, "\nState:"), "\tZ", 2))
        errx(REFUSED, "%d: its first thread has ended, and a process without it can't be let go", pid);
    for (int n = 0; atoi(status_of(pid, "\nTracerPid:")) == runner; n++, usleep(PAUSE))
        if (n == MOST_PAUSES || (n % ASK_AGAIN == 0 && sigqueue(runner, LET_GO_SIGNAL, (union sigval){.sival_int = pid}) && errno != ESRCH))
            errx(REFUSED, "%d: its runner hasn't let it go", pid);
}

enum { DELIVERED = PTRACE_EVENT_STOP << 8 | SIGTRAP }; /* a stop with no signal to go on with, that is no plain one */

/* The stop at which a thread is held, a plain one or a signal's; 0 where it stands at another, which is left to be waited for: it ends, or begins
   something. A thread that has ended before the others of its process comes to none. */
static int hold(const struct task *it) {
    enum { PAUSE = 100, MOST_LOOKS = 2000 }; /* microseconds */
    siginfo_t info = {0};
    if (ptrace(PTRACE_INTERRUPT, it->tid, 0, 0))
        return 0;
    for (int n = 0; n < MOST_LOOKS && !waitid(P_PID, (id_t)it->tid, &info, WEXITED | WSTOPPED | WNOWAIT | WNOHANG | __WALL) && !info.si_pid; n++)
        usleep(PAUSE);
    bool is_plain = info.si_status >> 8 == 0 || info.si_status >> 8 == PTRACE_EVENT_STOP;
    return info.si_code == CLD_TRAPPED && is_plain ? info.si_status : 0;
}

void let_go(pid_t group) {
    struct task *standing = NULL, *it, *next;
    LIST_FOREACH(it, &all_tasks, others) {
        it->stop = it->group == group ? hold(it) : 0;
        if (it->stop >> 8 == PTRACE_EVENT_STOP)
            standing = it;
        else if (it->stop && (it->stop = before_delivery(it, it->stop)) <= 0)
            it->stop = it->stop ? 0 : DELIVERED;
    }
    bool is_free = standing && (!standing->space || !standing->space->is_shared || make_own(standing->space, standing->tid));
    for (it = LIST_FIRST(&all_tasks); it; it = next) {
        pid_t tid = it->tid;
        int number = it->stop >> 8 ? 0 : it->stop;
        next = LIST_NEXT(it, others);
        if (!it->stop)
            continue;
        if (is_free)
            drop_task(it, "running", true);
        ptrace(PTRACE_INTERRUPT, tid, 0, 0); /* so that a call which was interrupted is made again */
        ptrace(is_free ? PTRACE_DETACH : PTRACE_CONT, tid, 0, number);
    }
}
