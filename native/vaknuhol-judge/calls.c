/* Which bytes of memory the kernel writes in a system call. */
#define _GNU_SOURCE
#include "access.h"

#include <asm/termbits.h>
#include <fcntl.h>
#include <linux/futex.h>
#include <linux/sched.h>
#include <sys/ioctl.h>
#include <sys/mman.h>
#include <sys/socket.h>
#include <sys/syscall.h>

#include "threads.h"

enum { OLDEST_ERROR = -4095, LONGEST_NAME = 128, GET_FS = 0x1003, GET_GS = 0x1004 };

/* How many bytes a call writes through an argument: a number, as many as it answers or so many for each, or up to a number. */
enum size { FIXED, ANSWERED_TIMES, UP_TO, COUNTED_TIMES };

struct buffer {
    int call, argument;
    enum size how;
    int size; /* of COUNTED_TIMES the next argument has the count */
};

/* Calls that write memory. */
/* clang-format off */
static const struct buffer BUFFERS[] = {
    { SYS_read, 1, ANSWERED_TIMES, 1 },        { SYS_pread64, 1, ANSWERED_TIMES, 1 },     { SYS_stat, 1, FIXED, 144 },
    { SYS_fstat, 1, FIXED, 144 },              { SYS_lstat, 1, FIXED, 144 },              { SYS_newfstatat, 2, FIXED, 144 },
    { SYS_statx, 4, FIXED, 256 },              { SYS_poll, 0, COUNTED_TIMES, 8 },         { SYS_ppoll, 0, COUNTED_TIMES, 8 },
    { SYS_pipe, 0, FIXED, 8 },                 { SYS_pipe2, 0, FIXED, 8 },                { SYS_socketpair, 3, FIXED, 8 },
    { SYS_uname, 0, FIXED, 390 },              { SYS_getcwd, 0, ANSWERED_TIMES, 1 },      { SYS_readlink, 1, ANSWERED_TIMES, 1 },
    { SYS_readlinkat, 2, ANSWERED_TIMES, 1 },  { SYS_getdents64, 1, ANSWERED_TIMES, 1 },  { SYS_gettimeofday, 0, FIXED, 16 },
    { SYS_gettimeofday, 1, FIXED, 8 },         { SYS_clock_gettime, 1, FIXED, 16 },       { SYS_clock_getres, 1, FIXED, 16 },
    { SYS_time, 0, FIXED, 8 },                 { SYS_nanosleep, 1, UP_TO, 16 },           { SYS_clock_nanosleep, 3, UP_TO, 16 },
    { SYS_getrlimit, 1, FIXED, 16 },           { SYS_prlimit64, 3, FIXED, 16 },           { SYS_getrusage, 1, FIXED, 144 },
    { SYS_sysinfo, 0, UP_TO, 112 },            { SYS_times, 0, FIXED, 32 },               { SYS_rt_sigaction, 2, FIXED, 32 },
    { SYS_rt_sigprocmask, 2, FIXED, 8 },       { SYS_rt_sigpending, 0, FIXED, 8 },        { SYS_sigaltstack, 1, UP_TO, 24 },
    { SYS_rt_sigtimedwait, 1, FIXED, 128 },    { SYS_getrandom, 0, ANSWERED_TIMES, 1 },   { SYS_recvfrom, 1, ANSWERED_TIMES, 1 },
    { SYS_recvfrom, 4, UP_TO, LONGEST_NAME },  { SYS_recvfrom, 5, FIXED, 4 },             { SYS_accept, 1, UP_TO, LONGEST_NAME },
    { SYS_accept, 2, FIXED, 4 },               { SYS_accept4, 1, UP_TO, LONGEST_NAME },   { SYS_accept4, 2, FIXED, 4 },
    { SYS_getsockname, 1, UP_TO, LONGEST_NAME }, { SYS_getsockname, 2, FIXED, 4 },        { SYS_getpeername, 1, UP_TO, LONGEST_NAME },
    { SYS_getpeername, 2, FIXED, 4 },          { SYS_epoll_wait, 1, ANSWERED_TIMES, 12 }, { SYS_epoll_pwait, 1, ANSWERED_TIMES, 12 },
    { SYS_wait4, 1, UP_TO, 4 },                { SYS_wait4, 3, UP_TO, 144 },              { SYS_waitid, 2, UP_TO, 128 },
    { SYS_waitid, 4, UP_TO, 144 },             { SYS_sched_getaffinity, 2, ANSWERED_TIMES, 1 }, { SYS_getitimer, 1, FIXED, 32 },
    { SYS_setitimer, 2, FIXED, 32 },           { SYS_timer_create, 2, FIXED, 4 },         { SYS_timer_settime, 3, FIXED, 32 },
    { SYS_getgroups, 1, ANSWERED_TIMES, 4 },   { SYS_statfs, 1, FIXED, 120 },             { SYS_fstatfs, 1, FIXED, 120 },
    { SYS_sendfile, 2, UP_TO, 8 },             { SYS_timerfd_settime, 3, FIXED, 32 },
};

/* Calls that read and write none. */
static const int SILENT[] = {
    SYS_close, SYS_lseek, SYS_mprotect, SYS_brk, SYS_sched_yield, SYS_dup, SYS_dup2, SYS_dup3, SYS_pause, SYS_alarm, SYS_getpid, SYS_gettid, SYS_getppid,
    SYS_getuid, SYS_geteuid, SYS_getgid, SYS_getegid, SYS_socket, SYS_listen, SYS_shutdown, SYS_fork, SYS_vfork, SYS_exit, SYS_exit_group, SYS_kill,
    SYS_tkill, SYS_tgkill, SYS_fsync, SYS_ftruncate, SYS_umask, SYS_setsid, SYS_set_tid_address, SYS_set_robust_list, SYS_rseq, SYS_membarrier, SYS_eventfd2,
    SYS_epoll_create1, SYS_flock, SYS_msync, SYS_getpgrp, SYS_setpriority, SYS_fadvise64, SYS_timerfd_create, SYS_timer_delete,
};
/* clang-format on */

uint64_t argument_of(const struct call *call, int number) {
    const struct user_regs_struct *r = &call->regs;
    const uint64_t all[] = {r->rdi, r->rsi, r->rdx, r->r10, r->r8, r->r9};
    return all[number];
}

static int add(struct access *accesses, int count, uint64_t lo, uint64_t size, bool surely) {
    if (!lo || !size)
        return count;
    accesses[count] = (struct access){lo, lo + size, false, true, surely};
    return count + 1;
}

/* Whether a call is one of those that write, or of those that do neither; `answer_accesses` has some more. */
static bool is_listed(uint64_t number) {
    static const int MORE[] = {SYS_clone, SYS_mmap, SYS_munmap, SYS_madvise, SYS_arch_prctl};
    bool is_found = false;
    for (size_t at = 0; at < sizeof MORE / sizeof *MORE; at++)
        is_found |= (uint64_t)MORE[at] == number;
    for (size_t at = 0; at < sizeof BUFFERS / sizeof *BUFFERS; at++)
        is_found |= (uint64_t)BUFFERS[at].call == number;
    for (size_t at = 0; at < sizeof SILENT / sizeof *SILENT; at++)
        is_found |= (uint64_t)SILENT[at] == number;
    return is_found;
}

static void name(struct call *call, uint64_t lo, uint64_t size, bool surely) {
    if (call->named_count == MOST_VECTORS)
        call->is_known = false;
    else if (lo && size)
        call->named[call->named_count++] = (struct access){lo, lo + size, false, true, surely};
}

static void name_buffers(struct call *call, pid_t tid, uint64_t at, uint64_t count) {
    uint64_t vector[2];
    for (uint64_t number = 0; number < count && call->is_known; number++)
        if (read_memory(tid, at + 16 * number, vector, sizeof vector))
            name(call, vector[0], vector[1], true);
}

/* A message that is received: lengths and flags of its head, a name, control data, buffers. */
static void name_message(struct call *call, pid_t tid, uint64_t at) {
    struct msghdr head;
    if (!read_memory(tid, at, &head, sizeof head))
        return;
    name(call, at + offsetof(struct msghdr, msg_namelen), sizeof head.msg_namelen, false);
    name(call, at + offsetof(struct msghdr, msg_controllen), sizeof head.msg_controllen + sizeof head.msg_flags, false);
    name(call, (uint64_t)head.msg_name, head.msg_namelen, false);
    name(call, (uint64_t)head.msg_control, head.msg_controllen, false);
    name_buffers(call, tid, (uint64_t)head.msg_iov, head.msg_iovlen);
}

struct call begin_call(pid_t tid, const struct user_regs_struct *regs) {
    struct call call = {.regs = *regs, .is_known = true};
    uint32_t length = 0;
    uint64_t words[4] = {0};
    switch (regs->rax) {
    case SYS_readv: name_buffers(&call, tid, regs->rsi, regs->rdx); break;
    case SYS_recvmsg: name_message(&call, tid, regs->rsi); break;
    case SYS_getsockopt:
        read_memory(tid, regs->r8, &length, sizeof length);
        name(&call, regs->r10, length, false), name(&call, regs->r8, sizeof length, false);
        break;
    case SYS_vfork: call.args[0] = CLONE_VM | CLONE_VFORK; break;
    case SYS_clone: call.args[0] = regs->rdi, call.args[1] = regs->rdx, call.args[2] = regs->r10; break;
    case SYS_clone3:
        read_memory(tid, regs->rdi, words, sizeof words);
        call.args[0] = words[0], call.args[1] = words[3], call.args[2] = words[2];
        break;
    default: break;
    }
    call.is_known &= find_reads(&call, tid) || is_listed(regs->rax);
    return call;
}

/* A thread's number goes to its parent's word, and to its own. */
static int clone_accesses(const struct call *call, struct access *accesses) {
    int count = call->args[0] & 0x100000 ? add(accesses, 0, call->args[1], 4, true) : 0;
    return call->args[0] & 0x1000000 ? add(accesses, count, call->args[2], 4, true) : count;
}

static int ioctl_accesses(const struct call *call, struct access *accesses) {
    uint64_t request = argument_of(call, 1);
    int size = request == TCGETS ? (int)sizeof(struct termios) : request == TIOCGWINSZ ? 8 : 0;
    if (request == TIOCGPGRP || request == FIONREAD)
        size = 4;
    if (request == TCSETS || request == TCSETSW || request == TCSETSF || request == TIOCSWINSZ || request == TIOCSPGRP || request == FIONBIO)
        return 0;
    return size ? add(accesses, 0, argument_of(call, 2), size, false) : -1;
}

static int futex_accesses(const struct call *call, struct access *accesses) {
    int what = argument_of(call, 1) & FUTEX_CMD_MASK;
    if (what == FUTEX_WAIT || what == FUTEX_WAIT_BITSET || what == FUTEX_WAKE || what == FUTEX_WAKE_BITSET || what == FUTEX_REQUEUE
        || what == FUTEX_CMP_REQUEUE)
        return 0;
    return what == FUTEX_WAKE_OP ? add(accesses, 0, argument_of(call, 4), 4, false) : add(accesses, 0, argument_of(call, 0), 4, false);
}

/* Calls that map memory: what lies there is as new. */
static int map_accesses(const struct call *call, int64_t answer, struct access *accesses) {
    switch (call->regs.rax) {
    case SYS_mmap: return add(accesses, 0, (uint64_t)answer, (argument_of(call, 1) + 4095) & ~4095ull, true);
    case SYS_munmap: return add(accesses, 0, argument_of(call, 0), argument_of(call, 1), false);
    case SYS_mremap: return add(accesses, 0, (uint64_t)answer, argument_of(call, 2), false);
    default: return argument_of(call, 2) == MADV_DONTNEED ? add(accesses, 0, argument_of(call, 0), argument_of(call, 1), false) : 0;
    }
}

/* Buffers that the call named. */
static int named_accesses(const struct call *call, int64_t answer, struct access *accesses) {
    int count = 0;
    for (int at = 0; at < call->named_count; at++) {
        const struct access *it = &call->named[at];
        int64_t size = it->hi - it->lo, taken = !it->surely || size < answer ? size : answer;
        count = add(accesses, count, it->lo, taken, it->surely);
        answer -= it->surely ? taken : 0;
    }
    return count;
}

static int selected_accesses(const struct call *call, struct access *accesses) {
    int count = 0;
    for (int at = 1; at <= 3; at++)
        count = add(accesses, count, argument_of(call, at), selected_bytes(call), true);
    return add(accesses, count, argument_of(call, 4), 16, false);
}

static int table_accesses(const struct call *call, int64_t answer, struct access *accesses) {
    int count = 0;
    for (size_t at = 0; at < sizeof BUFFERS / sizeof *BUFFERS; at++) {
        const struct buffer *it = &BUFFERS[at];
        if ((uint64_t)it->call != call->regs.rax)
            continue;
        uint64_t times = it->how == ANSWERED_TIMES ? (uint64_t)answer : it->how == COUNTED_TIMES ? argument_of(call, it->argument + 1) : 1;
        count = add(accesses, count, argument_of(call, it->argument), it->size * times, it->how == FIXED || it->how == ANSWERED_TIMES);
    }
    return count;
}

static int written(const struct call *call, int64_t answer, struct access *accesses) {
    switch (call->regs.rax) {
    case SYS_clone:
    case SYS_clone3: return clone_accesses(call, accesses);
    case SYS_ioctl: return ioctl_accesses(call, accesses);
    case SYS_futex: return futex_accesses(call, accesses);
    case SYS_readv:
    case SYS_recvmsg:
    case SYS_getsockopt: return named_accesses(call, answer, accesses);
    case SYS_select:
    case SYS_pselect6: return selected_accesses(call, accesses);
    case SYS_mmap:
    case SYS_munmap:
    case SYS_mremap:
    case SYS_madvise: return map_accesses(call, answer, accesses);
    case SYS_fcntl: return argument_of(call, 1) == F_GETLK || argument_of(call, 1) == F_OFD_GETLK ? add(accesses, 0, argument_of(call, 2), 32, false) : 0;
    case SYS_arch_prctl: return argument_of(call, 0) == GET_FS || argument_of(call, 0) == GET_GS ? add(accesses, 0, argument_of(call, 1), 8, true) : 0;
    default: return table_accesses(call, answer, accesses);
    }
}

int answer_accesses(const struct call *call, int64_t answer, struct access accesses[MOST_ACCESSES]) {
    bool is_error = OLDEST_ERROR <= answer && answer < 0 && call->regs.rax != SYS_nanosleep && call->regs.rax != SYS_clock_nanosleep;
    int count = is_error ? 0 : written(call, answer, accesses);
    return call->is_known ? count : -1;
}
