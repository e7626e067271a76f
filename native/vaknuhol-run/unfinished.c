/* A call of the kernel that a signal interrupts and that is made again is one event. Where no handler comes in between, the thread stays where it stands, and
   its call is made again in the trampoline. Where one does, the thread goes back from it to the call of the original, and to its event: that is taken
   back as the handler begins, since only then it shows whether the call is made again. Whether the condition of an event held is not known behind a call
   where it asks for a register that calls change: each try is an event then.
   A signal that does nothing never reaches the process of the original, but does that of a traced one: a call that waits without end, and that each signal ends
   with EINTR, is made again as if it had not come. */
#include "run.h"

enum { FIRST_ANSWER = 512, UNLESS_HANDLED = 514, LAST_ANSWER = 516 }; /* ERESTARTSYS to ERESTART_RESTARTBLOCK of the kernel: a call may be made again */
enum { RCX = 1, R11 = 11 };                                           /* calls change them */
enum { FRAME_RIP = 176 }; /* where a handler's frame has the address to which it returns, from its stack pointer on */

bool is_unfinished(const struct user_regs_struct *regs) {
    int64_t answer = -(int64_t)regs->rax;
    return is_at_call(regs) && FIRST_ANSWER <= answer && answer <= LAST_ANSWER;
}

static uint64_t bit(int number) { return 1ull << (number - 1); }

/* Whether a signal is ignored, or does one of these things by default. */
static bool is_one_of(pid_t tid, int number, uint64_t by_default) {
    unsigned long long ignored = strtoull(status_of(tid, "\nSigIgn:"), NULL, 16), caught = strtoull(status_of(tid, "\nSigCgt:"), NULL, 16);
    return ((ignored | (by_default & ~caught)) & bit(number)) != 0;
}

bool is_idle(pid_t tid, int number) {
    return is_one_of(tid, number, bit(SIGCHLD) | bit(SIGURG) | bit(SIGWINCH) | bit(SIGCONT) | bit(SIGTSTP) | bit(SIGTTIN) | bit(SIGTTOU));
}

/* Whether a call waits until something comes, and with the signals that were blocked before. */
static bool is_endless(const struct user_regs_struct *regs) {
    switch (regs->orig_rax) {
    case SYS_epoll_wait: return (int)regs->r10 < 0;
    case SYS_epoll_pwait: return (int)regs->r10 < 0 && !regs->r8;
    case SYS_epoll_pwait2: return !regs->r10 && !regs->r8;
    case SYS_rt_sigtimedwait: return !regs->rdx;
    case SYS_semtimedop: return !regs->r10;
    default: return regs->orig_rax == SYS_semop;
    }
}

/* What stopped the process ends its call: as in the original, that is not made again as it is continued. */
void wait_again(pid_t tid, int number, struct user_regs_struct *regs) {
    if ((int64_t)regs->rax != -EINTR || !is_at_call(regs) || !is_endless(regs) || number == SIGCONT
        || !is_one_of(tid, number, bit(SIGCHLD) | bit(SIGURG) | bit(SIGWINCH)))
        return;
    regs->rax = (uint64_t)-UNLESS_HANDLED;
    ptrace(PTRACE_SETREGS, tid, 0, regs);
}

static bool is_condition_known(void) {
    unsigned n = 0;
    while (n < patch->comparison_count && patch->comparisons[n].reg != RCX && patch->comparisons[n].reg != R11)
        n++;
    return n == patch->comparison_count;
}

int deliver(const struct space *space, pid_t tid, int number, const struct tramp *it, const struct user_regs_struct *outside) {
    struct user_regs_struct begun, before = *outside;
    uint64_t back;
    if (!begin_handler(tid, number, &begun))
        return AWAY;
    before.rax = before.orig_rax;
    if (begun.rsp != before.rsp && is_condition_known() && read_word(tid, begun.rsp + FRAME_RIP, &back) && back == it->start)
        take_back(space, tid, it->number, &before);
    return 0;
}
