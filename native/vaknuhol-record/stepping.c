#include "stepping.h"

#include <stdio.h>

/* Single steps are slow: so many are made between a handler and the next signal from outside, or there might be none but handlers'. */
enum { REST = 100, MOST_HELD = 64 };

static siginfo_t held[MOST_HELD]; /* signals from outside that wait, in order */
static int held_count, came;      /* came: the signal of this stop, with a handler */
static bool is_held;              /* it is the first of those that waited */
static uint64_t rested;           /* steps since a handler was entered or left */

void rest(void) { rested = 0; }

/* Whether a signal changes nothing: it is ignored. */
static bool is_idle(int number) {
    bool is_ignored = number == SIGCHLD || number == SIGURG || number == SIGWINCH || number == SIGCONT;
    return is_signal_in(tracee(), "\nSigIgn:", number) || (is_ignored && !is_signal_in(tracee(), "\nSigCgt:", number));
}

/* A repeated instruction stops after each turn, and a system call that a signal interrupts is made again. */
static bool is_interrupted(const struct decoded *insn, const struct user_regs_struct *regs) {
    int64_t answer = regs->rax;
    return is_syscall(insn) && regs->rip != insn->rip && -516 <= answer && answer <= -512;
}

static bool is_unfinished(const struct decoded *insn, const struct user_regs_struct *regs) {
    bool may_stay = is_syscall(insn) || repeats_string(insn);
    return is_interrupted(insn, regs) || (may_stay && regs->rip == insn->rip);
}

/* Whether a signal from outside may come before this instruction. Before a system call it doesn't wait for long: the call may wait for
   it. */
static bool may_come(const struct decoded *insn) { return rested >= REST || (enters_kernel(insn) && rested > 0); }

/* Whether a timer or another process sent a signal; a program that sends one itself has it at once. */
static bool is_from_outside(const siginfo_t *info) {
    int number = info->si_signo;
    bool is_fault = number == SIGSEGV || number == SIGBUS || number == SIGILL || number == SIGFPE;
    return info->si_code > 0 ? info->si_code == SI_KERNEL && !is_fault : info->si_code == SI_TIMER || info->si_pid != tracee();
}

/* Keeps a signal from outside that comes too early; a pending one of the same number stands for both, as with the kernel. */
static bool is_kept(const struct decoded *insn, const struct user_regs_struct *regs) {
    siginfo_t info;
    get_info(&info);
    if (!is_from_outside(&info) || may_come(insn) || is_interrupted(insn, regs))
        return false;
    for (int at = 0; at < held_count && info.si_signo < SIGRTMIN; at++)
        if (held[at].si_signo == info.si_signo)
            return true;
    if (held_count == MOST_HELD)
        return false;
    held[held_count++] = info;
    return true;
}

/* A signal that comes to the process as it makes an instruction: whether it is passed on, or kept; else the run stops. */
static enum outcome take_signal(int number, int *sent, const struct decoded *insn, struct user_regs_struct *regs) {
    static char why[40];
    *sent = 0;
    if (is_idle(number)) {
        *sent = number;
        return MADE;
    }
    if (!is_signal_in(tracee(), "\nSigCgt:", number)) {
        snprintf(why, sizeof why, "signal %d", number);
        return ends_by(why);
    }
    get_regs(tracee(), regs);
    if (is_kept(insn, regs))
        return MADE;
    came = number, is_held = false;
    return CAME;
}

/* Whether a signal that waited comes now. */
static bool is_released(const struct decoded *insn) {
    if (!held_count || !may_come(insn) || is_signal_in(tracee(), "\nSigBlk:", held[0].si_signo))
        return false;
    came = held[0].si_signo, is_held = true;
    return true;
}

enum outcome make_step(const struct decoded *insn, struct user_regs_struct *regs) {
    int sent = 0;
    if (is_released(insn)) {
        get_regs(tracee(), regs);
        return CAME;
    }
    for (;;) {
        int number = go_on(sent);
        if (!number)
            return ENDED;
        if (number != SIGTRAP) {
            enum outcome outcome = take_signal(number, &sent, insn, regs);
            if (outcome != MADE)
                return outcome;
            continue;
        }
        sent = 0;
        get_regs(tracee(), regs);
        if (!is_unfinished(insn, regs)) {
            rested++;
            return MADE;
        }
    }
}

bool enter_handler(struct user_regs_struct *regs) {
    static char why[40];
    if (is_held) {
        set_info(&held[0]);
        held_count--;
        for (int at = 0; at < held_count; at++)
            held[at] = held[at + 1];
    }
    int number = go_on(came);
    if (number && number != SIGTRAP) {
        snprintf(why, sizeof why, "signal %d", number);
        return ends_by(why);
    }
    if (number)
        get_regs(tracee(), regs);
    rest();
    return number;
}
