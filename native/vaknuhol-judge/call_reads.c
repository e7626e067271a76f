/* Which bytes of memory the kernel reads in a system call, and lets its answer depend on: by registers and memory as the call begins.
   Padding of structures is no part of them, nor are fields that ask for nothing. */
#define _GNU_SOURCE
#include "access.h"

#include <asm/termbits.h>
#include <fcntl.h>
#include <linux/futex.h>
#include <string.h>
#include <sys/ioctl.h>
#include <sys/prctl.h>
#include <sys/socket.h>
#include <sys/syscall.h>

#include "threads.h"

enum { LONGEST_STRING = 4096, LONGEST_ARGUMENT = 131072, CHUNK = 256, VECTOR = 16, POLLED = 8, ASKED_OF_POLLED = 6, THREAD_NAME = 16, SETS = 3 };
static const uint64_t MOST_AT_ONCE = 0x7ffff000; /* no call transfers more bytes */

/* So many bytes; so many for each of what the next argument, or the one before, counts; a string and its 0; a vector of buffers, or with what
   lies in them. */
enum form { FIXED, COUNTED, COUNTED_BEFORE, STRING, BUFFERS, FILLED_BUFFERS };

struct question {
    int call, argument;
    enum form form;
    int offset, size;
};

/* clang-format off */
static const struct question QUESTIONS[] = {
    { SYS_write, 1, COUNTED, 0, 1 },            { SYS_pwrite64, 1, COUNTED, 0, 1 },        { SYS_writev, 1, FILLED_BUFFERS, 0, 0 },
    { SYS_readv, 1, BUFFERS, 0, 0 },            { SYS_sendto, 1, COUNTED, 0, 1 },          { SYS_sendto, 4, COUNTED, 0, 1 },
    { SYS_connect, 1, COUNTED, 0, 1 },          { SYS_bind, 1, COUNTED, 0, 1 },            { SYS_setsockopt, 3, COUNTED, 0, 1 },
    { SYS_getsockopt, 4, FIXED, 0, 4 },         { SYS_accept, 2, FIXED, 0, 4 },            { SYS_accept4, 2, FIXED, 0, 4 },
    { SYS_getsockname, 2, FIXED, 0, 4 },        { SYS_getpeername, 2, FIXED, 0, 4 },       { SYS_recvfrom, 5, FIXED, 0, 4 },
    { SYS_open, 0, STRING, 0, 0 },              { SYS_openat, 1, STRING, 0, 0 },           { SYS_creat, 0, STRING, 0, 0 },
    { SYS_stat, 0, STRING, 0, 0 },              { SYS_lstat, 0, STRING, 0, 0 },            { SYS_newfstatat, 1, STRING, 0, 0 },
    { SYS_statx, 1, STRING, 0, 0 },             { SYS_statfs, 0, STRING, 0, 0 },           { SYS_access, 0, STRING, 0, 0 },
    { SYS_faccessat, 1, STRING, 0, 0 },         { SYS_faccessat2, 1, STRING, 0, 0 },       { SYS_readlink, 0, STRING, 0, 0 },
    { SYS_readlinkat, 1, STRING, 0, 0 },        { SYS_chdir, 0, STRING, 0, 0 },            { SYS_rename, 0, STRING, 0, 0 },
    { SYS_rename, 1, STRING, 0, 0 },            { SYS_renameat, 1, STRING, 0, 0 },         { SYS_renameat, 3, STRING, 0, 0 },
    { SYS_renameat2, 1, STRING, 0, 0 },         { SYS_renameat2, 3, STRING, 0, 0 },        { SYS_mkdir, 0, STRING, 0, 0 },
    { SYS_mkdirat, 1, STRING, 0, 0 },           { SYS_rmdir, 0, STRING, 0, 0 },            { SYS_unlink, 0, STRING, 0, 0 },
    { SYS_unlinkat, 1, STRING, 0, 0 },          { SYS_link, 0, STRING, 0, 0 },             { SYS_link, 1, STRING, 0, 0 },
    { SYS_symlink, 0, STRING, 0, 0 },           { SYS_symlink, 1, STRING, 0, 0 },          { SYS_chmod, 0, STRING, 0, 0 },
    { SYS_fchmodat, 1, STRING, 0, 0 },          { SYS_truncate, 0, STRING, 0, 0 },         { SYS_memfd_create, 0, STRING, 0, 0 },
    { SYS_utimensat, 1, STRING, 0, 0 },         { SYS_utimensat, 2, FIXED, 0, 32 },        { SYS_inotify_add_watch, 1, STRING, 0, 0 },
    { SYS_nanosleep, 0, FIXED, 0, 16 },         { SYS_clock_nanosleep, 2, FIXED, 0, 16 },  { SYS_rt_sigaction, 1, FIXED, 0, 32 },
    { SYS_rt_sigprocmask, 1, FIXED, 0, 8 },     { SYS_rt_sigsuspend, 0, FIXED, 0, 8 },     { SYS_rt_sigtimedwait, 0, FIXED, 0, 8 },
    { SYS_rt_sigtimedwait, 2, FIXED, 0, 16 },   { SYS_sigaltstack, 0, FIXED, 0, 12 },      { SYS_sigaltstack, 0, FIXED, 16, 8 },
    { SYS_prlimit64, 2, FIXED, 0, 16 },         { SYS_setrlimit, 1, FIXED, 0, 16 },        { SYS_setitimer, 1, FIXED, 0, 32 },
    { SYS_timer_create, 1, FIXED, 0, 20 },      { SYS_timer_settime, 2, FIXED, 0, 32 },    { SYS_timerfd_settime, 2, FIXED, 0, 32 },
    { SYS_signalfd4, 1, COUNTED, 0, 1 },        { SYS_ppoll, 2, FIXED, 0, 16 },            { SYS_ppoll, 3, FIXED, 0, 8 },
    { SYS_epoll_pwait, 4, FIXED, 0, 8 },        { SYS_sched_setaffinity, 2, COUNTED_BEFORE, 0, 1 }, { SYS_clone3, 0, COUNTED, 0, 1 },
    { SYS_sendfile, 2, FIXED, 0, 8 },           { SYS_mremap, 0, COUNTED, 0, 1 },
};
/* clang-format on */

static void add(struct call *call, uint64_t lo, uint64_t size) {
    if (!lo || !size)
        return;
    if (size > MOST_AT_ONCE)
        size = MOST_AT_ONCE;
    uint64_t hi = lo + size < lo ? UINT64_MAX : lo + size;
    if (call->read_count && call->reads[call->read_count - 1].hi == lo)
        call->reads[call->read_count - 1].hi = hi;
    else if (call->read_count == MOST_READS)
        call->is_known = false;
    else
        call->reads[call->read_count++] = (struct access){lo, hi, true, false, false};
}

/* A string with its 0, as far as it can be read. */
static void add_string(struct call *call, pid_t tid, uint64_t from, uint64_t most) {
    char bytes[CHUNK];
    const char *end = 0;
    uint64_t at = from;
    while (!end && at - from < most) {
        uint64_t size = CHUNK - at % CHUNK;
        if (!read_memory(tid, at, bytes, size))
            break;
        end = memchr(bytes, 0, size);
        at += end ? (uint64_t)(end - bytes) + 1 : size;
    }
    add(call, from, at - from < most ? at - from : most);
}

/* Addresses of strings, up to 0, and these. */
static void add_strings(struct call *call, pid_t tid, uint64_t at) {
    uint64_t addr = 0;
    for (; at && read_memory(tid, at, &addr, sizeof addr); at += sizeof addr) {
        add(call, at, sizeof addr);
        if (!addr || !call->is_known)
            break;
        add_string(call, tid, addr, LONGEST_ARGUMENT);
    }
}

static void add_buffers(struct call *call, pid_t tid, uint64_t at, uint64_t count, bool are_filled) {
    uint64_t words[2];
    add(call, at, VECTOR * count);
    for (uint64_t number = 0; are_filled && number < count && call->is_known; number++)
        if (read_memory(tid, at + VECTOR * number, words, sizeof words))
            add(call, words[0], words[1]);
}

/* The head of a message, its buffers, and what it sends. */
static void add_message(struct call *call, pid_t tid, uint64_t at, bool is_sent) {
    struct msghdr head;
    if (!read_memory(tid, at, &head, sizeof head))
        return;
    add(call, at, offsetof(struct msghdr, msg_namelen) + sizeof head.msg_namelen);
    add(call, at + offsetof(struct msghdr, msg_iov), offsetof(struct msghdr, msg_flags) - offsetof(struct msghdr, msg_iov));
    add_buffers(call, tid, (uint64_t)head.msg_iov, head.msg_iovlen, is_sent);
    if (is_sent) {
        add(call, (uint64_t)head.msg_name, head.msg_name ? head.msg_namelen : 0);
        add(call, (uint64_t)head.msg_control, head.msg_controllen);
    }
}

static void add_futex(struct call *call) {
    int what = (int)argument_of(call, 1) & FUTEX_CMD_MASK;
    bool waits = what == FUTEX_WAIT || what == FUTEX_WAIT_BITSET;
    if (what == FUTEX_WAKE || what == FUTEX_WAKE_BITSET || what == FUTEX_REQUEUE)
        return;
    add(call, argument_of(call, what == FUTEX_WAKE_OP ? 4 : 0), 4);
    if (waits || what == FUTEX_LOCK_PI || what == FUTEX_LOCK_PI2 || what == FUTEX_WAIT_REQUEUE_PI)
        add(call, argument_of(call, 3), 16);
}

static void add_polled(struct call *call) {
    for (uint64_t number = 0; number < argument_of(call, 1) && call->is_known; number++)
        add(call, argument_of(call, 0) + POLLED * number, ASKED_OF_POLLED);
}

/* Sets of descriptors, a time, and of pselect6 where the mask is, its size, and the mask. */
static void add_selected(struct call *call, pid_t tid) {
    uint64_t mask[2];
    for (int at = 1; at <= SETS; at++)
        add(call, argument_of(call, at), selected_bytes(call));
    add(call, argument_of(call, 4), 16);
    if (call->regs.rax != SYS_pselect6 || !read_memory(tid, argument_of(call, 5), mask, sizeof mask))
        return;
    add(call, argument_of(call, 5), sizeof mask);
    add(call, mask[0], mask[1]);
}

static void add_ioctl(struct call *call) {
    switch (argument_of(call, 1)) {
    case TCSETS:
    case TCSETSW:
    case TCSETSF: add(call, argument_of(call, 2), sizeof(struct termios)); break;
    case TIOCSWINSZ: add(call, argument_of(call, 2), 8); break;
    case TIOCSPGRP:
    case FIONBIO: add(call, argument_of(call, 2), 4); break;
    default: break;
    }
}

static void add_fcntl(struct call *call) {
    uint64_t what = argument_of(call, 1), at = argument_of(call, 2);
    if (what != F_GETLK && what != F_SETLK && what != F_SETLKW && what != F_OFD_GETLK && what != F_OFD_SETLK && what != F_OFD_SETLKW)
        return;
    add(call, at, 4);
    add(call, at + 8, what >= F_OFD_GETLK ? 20 : 16);
}

/* The frame of a handler: its stack, registers and mask. */
static void add_frame(struct call *call) {
    uint64_t frame = call->regs.rsp - sizeof(uint64_t);
    add(call, frame + 24, 12);
    add(call, frame + 40, 200);
    add(call, frame + 304, 8);
}

/* Calls that the table hasn't; whether this is one. */
static bool add_special(struct call *call, pid_t tid) {
    switch (call->regs.rax) {
    case SYS_execve:
        add_string(call, tid, argument_of(call, 0), LONGEST_STRING);
        add_strings(call, tid, argument_of(call, 1)), add_strings(call, tid, argument_of(call, 2));
        return true;
    case SYS_sendmsg:
    case SYS_recvmsg: add_message(call, tid, argument_of(call, 1), call->regs.rax == SYS_sendmsg); return true;
    case SYS_futex: add_futex(call); return true;
    case SYS_select:
    case SYS_pselect6: add_selected(call, tid); return true;
    case SYS_ioctl: add_ioctl(call); return true;
    case SYS_fcntl: add_fcntl(call); return true;
    case SYS_rt_sigreturn: add_frame(call); return true;
    case SYS_epoll_ctl: add(call, argument_of(call, 3), 12); return true;
    case SYS_prctl:
        call->is_known = argument_of(call, 0) == PR_SET_NAME;
        add_string(call, tid, call->is_known ? argument_of(call, 1) : 0, THREAD_NAME);
        return true;
    case SYS_poll:
    case SYS_ppoll: add_polled(call); return false;
    default: return false;
    }
}

uint64_t selected_bytes(const struct call *call) { return (argument_of(call, 0) + 63) / 64 * 8; }

bool find_reads(struct call *call, pid_t tid) {
    bool is_found = add_special(call, tid);
    for (size_t at = 0; at < sizeof QUESTIONS / sizeof *QUESTIONS; at++) {
        const struct question *it = &QUESTIONS[at];
        if ((uint64_t)it->call != call->regs.rax)
            continue;
        uint64_t addr = argument_of(call, it->argument), next = it->argument < 5 ? argument_of(call, it->argument + 1) : 0;
        is_found = true;
        switch (addr ? it->form : FIXED) {
        case FIXED: add(call, addr ? addr + (uint64_t)it->offset : 0, (uint64_t)it->size); break;
        case COUNTED: add(call, addr, (uint64_t)it->size * next); break;
        case COUNTED_BEFORE: add(call, addr, (uint64_t)it->size * argument_of(call, it->argument - 1)); break;
        case STRING: add_string(call, tid, addr, LONGEST_STRING); break;
        case BUFFERS:
        case FILLED_BUFFERS: add_buffers(call, tid, addr, next, it->form == FILLED_BUFFERS); break;
        }
    }
    return is_found;
}
