#define _GNU_SOURCE
#include "tracee.h"

#include <signal.h>
#include <stdlib.h>
#include <sys/personality.h>
#include <sys/ptrace.h>
#include <sys/syscall.h>
#include <sys/wait.h>
#include <unistd.h>

#include "refusing.h"

enum { KNOWN = 1 << 16, NO_CALL = 0xffff, NOT_TRACED = 125, NOT_STARTED = 126 };

static pid_t started; /* 0 where none runs */

void forget_started(void) { started = 0; }

void end_started(void) {
    if (started > 0)
        kill(started, SIGKILL);
}

pid_t start_program(char **command, long options) {
    int status;
    started = fork();
    if (started == 0) {
        personality(ADDR_NO_RANDOMIZE);
        if (ptrace(PTRACE_TRACEME, 0, 0, 0))
            _exit(NOT_TRACED);
        execv(command[0], command);
        _exit(NOT_STARTED);
    }
    if (started < 0 || atexit(end_started) || waitpid(started, &status, 0) != started)
        die("the program can't be started");
    errno = 0;
    if (!WIFSTOPPED(status)) {
        forget_started();
        die(WEXITSTATUS(status) == NOT_TRACED ? "ptrace is not allowed here" : "the program can't be started");
    }
    if (ptrace(PTRACE_SETOPTIONS, started, 0, PTRACE_O_EXITKILL | options))
        die("ptrace is not allowed here");
    return started;
}

void get_regs(pid_t tid, struct user_regs_struct *regs) {
    if (ptrace(PTRACE_GETREGS, tid, 0, regs))
        die("the registers can't be read");
    regs->eflags &= ~(uint64_t)(TRAP_FLAG | RESUME_FLAG);
}

void set_regs(pid_t tid, const struct user_regs_struct *regs) {
    if (ptrace(PTRACE_SETREGS, tid, 0, regs))
        die("the registers can't be set");
}

void change_memory(pid_t tid, uint64_t at, const void *from, size_t length) {
    if (!write_memory(tid, at, from, length))
        die("the program's memory can't be changed");
}

const struct decoded *decode(pid_t tid, uint64_t rip, bool is_kept) {
    static struct decoded known[KNOWN];
    struct decoded *insn = &known[(rip * 0x9e3779b97f4a7c15) >> 48];
    uint8_t bytes[MOST_BYTES];
    size_t size = MOST_BYTES;
    if (is_kept && insn->rip == rip && insn->insn.length)
        return insn;
    while (size > 0 && !read_memory(tid, rip, bytes, size))
        size--;
    return decode_bytes(insn, rip, bytes, size) ? insn : NULL;
}

void put_right(pid_t tid, const struct decoded *insn, const struct user_regs_struct *before, struct user_regs_struct *after, bool keeps_evex) {
    ZydisMnemonic name = insn->insn.mnemonic;
    if (name == ZYDIS_MNEMONIC_PUSHF || name == ZYDIS_MNEMONIC_PUSHFQ) {
        uint16_t low;
        if (read_memory(tid, after->rsp, &low, sizeof low)) {
            low &= ~TRAP_FLAG;
            change_memory(tid, after->rsp, &low, sizeof low);
        }
    } else if (name == ZYDIS_MNEMONIC_SYSCALL)
        after->r11 = before->eflags;
    else if (name == ZYDIS_MNEMONIC_CPUID && !keeps_evex)
        hide_evex(before, after);
    else
        return;
    set_regs(tid, after);
}

void refuse_rseq(pid_t tid, const struct user_regs_struct *regs) {
    struct user_regs_struct other = *regs;
    if (regs->rax != SYS_rseq)
        return;
    other.rax = NO_CALL;
    set_regs(tid, &other);
}
