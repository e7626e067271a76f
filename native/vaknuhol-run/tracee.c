#include "run.h"

#include <time.h>

enum { CALL_STOP = SIGTRAP | 0x80, CALL_BYTES = 0x050f, LOW_TWO = 0xffff };

bool is_at_call(const struct user_regs_struct *regs) { return (long long)regs->orig_rax >= 0; }

/* A thread's next stop, which is left to be waited for; whether it comes to one. The end of a process's first thread is not told before the other threads have
   been waited for, so it is looked for. */
static bool await_stop(pid_t tid, siginfo_t *info) {
    static const struct timespec PAUSE = {0, 10000000};
    sigset_t children;
    sigemptyset(&children), sigaddset(&children, SIGCHLD);
    while (!(info->si_pid = 0) && !waitid(P_PID, (id_t)tid, info, WEXITED | WSTOPPED | WNOWAIT | WNOHANG | __WALL) && !info->si_pid)
        if (sigtimedwait(&children, NULL, &PAUSE) < 0 && strchr("ZX", status_of(tid, "\nState:\t")[0]))
            return false;
    return info->si_pid && info->si_code == CLD_TRAPPED;
}

/* To the next stop of a kind; whether the thread comes to it. Where it ends, or a fault stops it, that is left to be waited for. SIGSTOP can't be blocked:
   it stops the process, of which this thread goes on, until it is made to look whether the process is stopped yet, or continued since. */
static bool to_stop(pid_t tid, enum __ptrace_request how, int wanted) {
    siginfo_t info;
    long signal = 0;
    bool is_there = false, has_stopped = false;
    while (!is_there && !ptrace(how, tid, 0, signal) && await_stop(tid, &info)) {
        bool is_job = info.si_status >> 8 == PTRACE_EVENT_STOP;
        is_there = info.si_status == wanted;
        if (!is_there && !is_job && info.si_status != SIGSTOP)
            break;
        signal = is_job || is_there ? 0 : SIGSTOP;
        has_stopped |= signal || (is_job && (info.si_status & 0xff) != SIGTRAP);
    }
    if (has_stopped)
        ptrace(PTRACE_INTERRUPT, tid, 0, 0);
    return is_there;
}

bool to_call_stop(pid_t tid) { return to_stop(tid, PTRACE_SYSCALL, CALL_STOP); }

/* The instruction of a call by which a thread has come to its stop stands before it: so no memory has to be read, as that of the child of a process whose
   memory is kept from the runner. Else the instruction is written over the aligned word in which the thread stands. All signals are blocked until the end. */
int64_t make_call(pid_t tid, long number, uint64_t a, uint64_t b, uint64_t c, uint64_t d) {
    struct user_regs_struct kept, regs;
    uint64_t mask, all = ~0ull;
    int64_t answer = -EFAULT;
    if (ptrace(PTRACE_GETREGS, tid, 0, &kept) || ptrace(PTRACE_GETSIGMASK, tid, 8, &mask) || ptrace(PTRACE_SETSIGMASK, tid, 8, &all))
        return -ESRCH;
    bool is_behind = is_at_call(&kept) && kept.orig_rax != SYS_execve && kept.orig_rax != SYS_execveat;
    regs = kept;
    regs.rip = is_behind ? kept.rip - 2 : kept.rip & ~7ull, regs.rax = (uint64_t)number, regs.orig_rax = ~0ull;
    regs.rdi = a, regs.rsi = b, regs.rdx = c, regs.r10 = d, regs.r8 = ~0ull, regs.r9 = 0;
    errno = 0;
    long covered = is_behind ? 0 : ptrace(PTRACE_PEEKTEXT, tid, regs.rip, 0);
    if (is_behind || (!errno && !ptrace(PTRACE_POKETEXT, tid, regs.rip, (covered & ~(long)LOW_TWO) | CALL_BYTES))) {
        if (!ptrace(PTRACE_SETREGS, tid, 0, &regs) && to_stop(tid, PTRACE_SYSCALL, CALL_STOP) && to_stop(tid, PTRACE_SYSCALL, CALL_STOP)
            && !ptrace(PTRACE_GETREGS, tid, 0, &regs))
            answer = (int64_t)regs.rax;
        if (!is_behind)
            ptrace(PTRACE_POKETEXT, tid, kept.rip & ~7ull, covered);
    }
    ptrace(PTRACE_SETREGS, tid, 0, &kept);
    ptrace(PTRACE_SETSIGMASK, tid, 8, &mask);
    return answer;
}

/* The signal for which the thread has stopped stays the one that is delivered as it goes on. */
bool make_steps(pid_t tid, struct user_regs_struct *regs, bool (*is_wanted)(const struct user_regs_struct *regs)) {
    uint64_t mask, all_but_faults = ~(1ull << (SIGSEGV - 1) | 1ull << (SIGBUS - 1) | 1ull << (SIGFPE - 1) | 1ull << (SIGILL - 1) | 1ull << (SIGTRAP - 1));
    siginfo_t info;
    bool is_made = true;
    if (ptrace(PTRACE_GETSIGINFO, tid, 0, &info) || ptrace(PTRACE_GETSIGMASK, tid, 8, &mask) || ptrace(PTRACE_SETSIGMASK, tid, 8, &all_but_faults))
        return false;
    while (is_made && is_wanted(regs))
        is_made = to_stop(tid, PTRACE_SINGLESTEP, SIGTRAP) && !ptrace(PTRACE_GETREGS, tid, 0, regs);
    ptrace(PTRACE_SETSIGMASK, tid, 8, &mask);
    ptrace(PTRACE_SETSIGINFO, tid, 0, &info);
    return is_made;
}

bool begin_handler(pid_t tid, int number, struct user_regs_struct *regs) {
    siginfo_t info;
    return !ptrace(PTRACE_SINGLESTEP, tid, 0, number) && await_stop(tid, &info) && info.si_status == SIGTRAP && !ptrace(PTRACE_GETREGS, tid, 0, regs);
}
