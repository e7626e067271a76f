/* Steps all threads of a patched program, one instruction at a time and in turn, and judges each step by the premises of the theorem of
   guests of several threads.

   usage: vaknuhol-judge RESULT ORIGINAL FACTS LIMIT [--evex] PROGRAM [ARGUMENTS..]

   RESULT gets lines: `steps`, `threads`, `events`, `deliveries`, `covered` (of how many steps the theorem speaks, and what comes behind, if
   they aren't all), `doubts` (how many steps may be answered otherwise in the original's run) and `doubt` (the first of them), `unknown`
   (numbers of system calls), `end` (exit N, signal N, exec, process, limit), `broken` (what broke a premise first) or `counters` (yes, gone,
   or which is wrong). FACTS is as facts.h says. After LIMIT steps the program is ended. */
#define _GNU_SOURCE
#include <errno.h>
#include <sched.h>
#include <stdio.h>
#include <stdlib.h>
#include <string.h>
#include <sys/ptrace.h>
#include <sys/syscall.h>
#include <sys/wait.h>
#include <ucontext.h>

#include "judge.h"
#include "refusing.h"

enum { TRIES = 40, LONGEST_TAIL = 12, IS_SHARED = 0x100, IS_THREAD = 0x10000 };

/* ERESTARTSYS, ERESTARTNOINTR, ERESTARTNOHAND and ERESTART_RESTARTBLOCK of the kernel. */
enum { RESTARTS = 512, RESTARTS_ALWAYS = 513, RESTARTS_UNHANDLED = 514, RESTARTS_REST = 516 };

const struct refusal refusal = {2, "no memory: %m"};
static char ending[40];
static bool keeps_evex;

static bool ends_by(const char *form, int number) {
    if (!*ending)
        snprintf(ending, sizeof ending, form, number);
    return false;
}

static bool is_over(void) { return *ending || *judged.broken; }

/* A thread that a call started stands where its parent does after the call. */
static void begin_thread(struct thread *it, const struct thread *parent) {
    get_regs(it->tid, &it->regs);
    it->regs.r11 &= ~(uint64_t)TRAP_FLAG;
    set_regs(it->tid, &it->regs);
    it->clears = parent->call.args[0] & 0x200000 ? parent->call.args[2] : 0;
    it->state = READY;
    bool is_inside = (marks_of(parent->insn.rip) & WORK) != 0;
    if (is_inside)
        limit_theorem("before a thread begins inside a trampoline");
    judge_begin(it, is_inside);
}

/* Waits for the first stop of a thread that this one has started. */
static void take_new(const struct thread *parent) {
    unsigned long tid;
    int status;
    if (ptrace(PTRACE_GETEVENTMSG, parent->tid, 0, &tid))
        die("a new thread can't be stepped");
    struct thread *it = thread_of((pid_t)tid);
    if (!it) {
        it = add_thread((pid_t)tid);
        if (waitpid(it->tid, &status, __WALL) != it->tid)
            die("a new thread can't be stepped");
    }
    begin_thread(it, parent);
}

static void finish_step(struct thread *it, struct user_regs_struct *after) {
    if (judge_step(it, after)) {
        it->regs = *after;
        it->state = READY;
    }
}

/* The stop that ends the step of a system call shows what the kernel answers itself, and no program sees, where a signal interrupted the
   call. The call isn't over: as the thread goes on it enters the signal's handler, or where another thread has taken the signal meanwhile,
   or it is ignored, makes the call again, and may wait in it for the other threads, which all stand still while one step is waited for. */
static bool is_interrupted(const struct user_regs_struct *after) {
    int64_t answer = (int64_t)after->rax;
    return answer == -RESTARTS || answer == -RESTARTS_ALWAYS || answer == -RESTARTS_UNHANDLED || answer == -RESTARTS_REST;
}

/* A thread has made its instruction, or a turn of it. */
static void made(struct thread *it) {
    struct user_regs_struct after;
    get_regs(it->tid, &after);
    bool may_stay = enters_kernel(&it->insn) || repeats_string(&it->insn);
    if (may_stay && after.rip == it->insn.rip) {
        step(it, 0);
        return;
    }
    if (is_syscall(&it->insn) && it->call.regs.rax == SYS_rt_sigreturn) {
        struct user_regs_struct called = it->regs;
        called.rip = it->insn.rip + it->insn.insn.length;
        finish_step(it, &called);
        if (!is_over() && judge_return(it, &after))
            it->regs = after;
        return;
    }
    if (is_syscall(&it->insn) && is_interrupted(&after)) {
        step(it, 0);
        return;
    }
    put_right(it->tid, &it->insn, &it->regs, &after, keeps_evex);
    if (is_syscall(&it->insn) && it->call.regs.rax == SYS_set_tid_address)
        it->clears = it->call.regs.rdi;
    finish_step(it, &after);
}

static uint64_t in_frame(const struct thread *it, const struct user_regs_struct *after, int number) {
    uint64_t value = 0, registers = after->rsp + sizeof(void *) + offsetof(ucontext_t, uc_mcontext.gregs);
    read_memory(it->tid, registers + number * sizeof(greg_t), &value, sizeof value);
    return value;
}

/* A signal enters its handler now. Where it ended a system call, that is a step before. */
static void deliver(struct thread *it, const siginfo_t *info, int ends_call) {
    struct user_regs_struct after;
    int status;
    if (ptrace(PTRACE_SETSIGINFO, it->tid, 0, info))
        die("a signal can't be sent");
    step(it, info->si_signo);
    if (waitpid(it->tid, &status, __WALL) != it->tid || !WIFSTOPPED(status) || WSTOPSIG(status) != SIGTRAP) {
        ends_by("signal %d", info->si_signo);
        return;
    }
    get_regs(it->tid, &after);
    if (ends_call && in_frame(it, &after, REG_RIP) != it->insn.rip) {
        struct user_regs_struct called = it->regs;
        called.rip = called.rcx = it->insn.rip + it->insn.insn.length;
        called.rax = in_frame(it, &after, REG_RAX), called.r11 = it->regs.eflags;
        if (!judge_step(it, &called))
            return;
    }
    if (it->is_behind || marks_of(it->projected) & NEW || (ends_call && marks_of(it->insn.rip) & NEW))
        breaks(it, "is where signal %d comes, inside a trampoline", info->si_signo);
    else if (judge_entry(it, info->si_signo, it->regs.rsp, &after)) {
        it->regs = after;
        it->state = READY;
    }
}

static bool is_fault(const siginfo_t *info) {
    int number = info->si_signo;
    return (number == SIGSEGV || number == SIGBUS || number == SIGILL || number == SIGFPE) && info->si_code > 0;
}

/* A fault inside a trampoline is one of an event; or of relocated code, as in the original, which a handler must not see there. */
static bool fails_inside(const struct thread *it, int number, bool is_caught) {
    unsigned here = marks_of(it->regs.rip);
    if (here & (SAVES | HAS_SAVED))
        return !breaks(it, "comes to its event, whose saved bytes at %lx can't be read and written", saved_at(&it->regs));
    return is_caught && here & NEW && !breaks(it, "is where signal %d comes, inside a trampoline", number);
}

/* A signal comes to a thread before it made its instruction, or in a system call. Where the thread stands inside a trampoline it waits. */
static void take_signal(struct thread *it, int number) {
    siginfo_t info;
    struct user_regs_struct now;
    bool is_default = number == SIGCHLD || number == SIGURG || number == SIGWINCH || number == SIGCONT;
    bool is_caught = is_signal_in(living(), "\nSigCgt:", number);
    if (!is_caught && (is_default || is_signal_in(living(), "\nSigIgn:", number))) {
        step(it, 0);
        return;
    }
    if (ptrace(PTRACE_GETSIGINFO, it->tid, 0, &info))
        memset(&info, 0, sizeof info), info.si_signo = number;
    if (is_fault(&info) && fails_inside(it, number, is_caught))
        return;
    if (!is_caught) {
        ends_by("signal %d", number);
        return;
    }
    get_regs(it->tid, &now);
    bool ends_call = is_syscall(&it->insn) && now.rip != it->insn.rip;
    if (is_outside(it) || ends_call || is_fault(&info))
        deliver(it, &info, ends_call);
    else if (it->held_count == MOST_HELD)
        ends_by("signal %d", number);
    else {
        it->held[it->held_count++] = info;
        step(it, 0);
    }
}

/* What a stop of a thread is. */
static void stopped(pid_t tid, int status) {
    struct thread *it = thread_of(tid);
    if (!it) {
        if (WIFSTOPPED(status))
            add_thread(tid);
        return;
    }
    if (!WIFSTOPPED(status)) {
        judge_end(it);
        it->state = GONE;
        if (WIFSIGNALED(status))
            ends_by("signal %d", WTERMSIG(status));
        else if (!living_count())
            ends_by("exit %d", WEXITSTATUS(status));
    } else if (status >> 16 == PTRACE_EVENT_CLONE) {
        take_new(it);
        step(it, 0);
    } else if (status >> 16 == PTRACE_EVENT_EXEC)
        ends_by("exec", 0);
    else if (WSTOPSIG(status) == SIGTRAP)
        made(it);
    else
        take_signal(it, WSTOPSIG(status));
}

/* Whether a stop came, of any thread, since where the process is killed its first thread ends last; with `waits` one is waited for. */
static bool take_stop(bool waits) {
    int status;
    pid_t found = waitpid(-1, &status, __WALL | (waits ? 0 : WNOHANG));
    if (found > 0)
        stopped(found, status);
    else if (found < 0 && errno != EINTR)
        die("the program can't be waited for");
    return found > 0;
}

/* Whether a system call may be made by a step: one that ends the run may not. */
static bool may_call(struct thread *it) {
    const struct user_regs_struct *r = &it->regs;
    it->call = begin_call(it->tid, r);
    judge_call(it);
    if (r->rax == SYS_exit_group || (r->rax == SYS_exit && living_count() == 1))
        return ends_by("exit %d", (int)(r->rdi & 255));
    uint64_t flags = it->call.args[0];
    if (flags & IS_SHARED && !(flags & IS_THREAD)) /* its events, too, would be in this memory */
        return ends_by("process", 0);
    refuse_rseq(it->tid, r);
    return true;
}

/* Delivers the first signal that waited and isn't blocked now, as in a handler of its own number; whether there is one. */
static bool deliver_held(struct thread *it) {
    uint64_t blocked;
    if (ptrace(PTRACE_GETSIGMASK, it->tid, sizeof blocked, &blocked))
        die("the blocked signals can't be read");
    for (int at = 0; at < it->held_count; at++) {
        siginfo_t info = it->held[at];
        if (blocked >> (info.si_signo - 1) & 1)
            continue;
        memmove(it->held + at, it->held + at + 1, (--it->held_count - at) * sizeof *it->held);
        deliver(it, &info, 0);
        return true;
    }
    return false;
}

/* Lets a thread make its instruction. A system call that doesn't answer soon is left to itself. */
static void make(struct thread *it) {
    if (it->held_count && is_outside(it) && deliver_held(it))
        return;
    const struct decoded *insn = decode(it->tid, it->regs.rip, (marks_of(it->regs.rip) & (LISTED | NEW)) != 0);
    if (!insn) {
        breaks(it, "is no instruction");
        return;
    }
    it->insn = *insn;
    bool is_call = enters_kernel(&it->insn);
    it->is_doubted = false;
    if (is_syscall(&it->insn) && !may_call(it))
        return;
    it->state = CALLS;
    step(it, 0);
    for (int tries = 0; it->state == CALLS && !is_over() && (!is_call || tries < TRIES); tries++)
        if (!take_stop(!is_call))
            sched_yield();
}

/* Each thread in relocated code behind its effect step goes on until it is outside. */
static void bring_out(void) {
    char kept[sizeof ending];
    memcpy(kept, ending, sizeof ending);
    *ending = 0;
    for (int at = 0; at < thread_count(); at++) {
        struct thread *it = thread_number(at);
        for (int tries = 0; tries < LONGEST_TAIL && !is_over() && it->state == READY && it->is_behind; tries++)
            make(it);
    }
    if (!*ending)
        memcpy(ending, kept, sizeof ending);
}

static void run(uint64_t limit) {
    int last = 0;
    while (!is_over() && living_count()) {
        if (judged.steps >= limit) {
            ends_by("limit", 0);
            break;
        }
        int at = 0, count = thread_count();
        while (at < count && thread_number((last + 1 + at) % count)->state != READY)
            at++;
        if (at == count) {
            take_stop(true);
            continue;
        }
        last = (last + 1 + at) % count;
        make(thread_number(last));
        bool calling = false;
        for (at = 0; at < thread_count(); at++)
            calling |= thread_number(at)->state == CALLS || thread_number(at)->state == BORN;
        if (calling && !is_over())
            take_stop(false);
    }
    if (!*judged.broken && living_count())
        bring_out();
}

static void write_result(FILE *result) {
    fprintf(result, "steps %lu\nthreads %d\nevents %lu\ndeliveries %lu\ncovered %lu%s%s\ndoubts %lu\n", judged.steps, thread_count(), judged.events,
            judged.deliveries, judged.covered, judged.limit ? " " : "", judged.limit ? judged.limit : "", judged.doubts);
    if (judged.doubts)
        fprintf(result, "doubt %s\n", judged.doubt);
    for (int at = 0; at < judged.unknown_count; at++)
        fprintf(result, "unknown %d\n", judged.unknown[at]);
    fprintf(result, "end %s\n", *ending ? ending : "broken");
    if (*judged.broken)
        fprintf(result, "broken %s\n", judged.broken);
    else
        fprintf(result, "counters %s\n", !living_count() ? "gone" : judge_counters() ? "yes" : judged.broken);
    if (fclose(result))
        die("the result can't be written");
}

int main(int count, char **words) {
    int program = 5;
    for (; program < count && !strncmp(words[program], "--", 2); program++)
        keeps_evex |= !strcmp(words[program], "--evex");
    if (program >= count) {
        fprintf(stderr, "usage: vaknuhol-judge RESULT ORIGINAL FACTS LIMIT [--evex] PROGRAM [ARGUMENTS..]\n");
        return 2;
    }
    FILE *result = fopen(words[1], "w");
    if (!result)
        die("the result can't be written");
    read_facts(words[2], words[3]);
    start(words + program);
    judge_begin(thread_number(0), false);
    run(strtoull(words[4], 0, 10));
    write_result(result);
    return 0;
}
