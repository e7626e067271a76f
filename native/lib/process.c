#define _GNU_SOURCE
#include "process.h"

#include <elf.h>
#include <errno.h>
#include <fcntl.h>
#include <stdio.h>
#include <stdlib.h>
#include <string.h>
#include <sys/ptrace.h>
#include <sys/uio.h>
#include <unistd.h>

enum { WORD = 8 };

bool read_memory(pid_t tid, uint64_t at, void *to, size_t length) {
    struct iovec here = {to, length}, there = {(void *)at, length};
    return process_vm_readv(tid, &here, 1, &there, 1, 0) == (ssize_t)length;
}

bool write_memory(pid_t tid, uint64_t at, const void *from, size_t length) {
    struct iovec here = {(void *)from, length}, there = {(void *)at, length};
    return process_vm_writev(tid, &here, 1, &there, 1, 0) == (ssize_t)length;
}

bool read_word(pid_t tid, uint64_t at, uint64_t *word) { return read_memory(tid, at, word, sizeof *word); }

/* By aligned words, of which none lies across the end of the memory. */
bool write_code(pid_t tid, uint64_t at, const uint8_t *code, size_t length) {
    for (size_t done = 0, taken; done < length; done += taken) {
        uint64_t from = at + done, place = from & ~7ull;
        errno = 0;
        long word = ptrace(PTRACE_PEEKTEXT, tid, place, 0);
        taken = WORD - (from - place) < length - done ? WORD - (from - place) : length - done;
        memcpy((uint8_t *)&word + (from - place), code + done, taken);
        if (errno || ptrace(PTRACE_POKETEXT, tid, place, word))
            return false;
    }
    return true;
}

const char *status_of(pid_t pid, const char *word) {
    static char text[8192];
    snprintf(text, sizeof text, "/proc/%d/status", pid);
    int file = open(text, O_RDONLY | O_CLOEXEC);
    ssize_t length = read(file, text, sizeof text - 1);
    close(file);
    text[length > 0 ? length : 0] = 0;
    const char *found = strstr(text, word);
    return found ? found + strlen(word) : "";
}

bool is_signal_in(pid_t pid, const char *word, int number) { return strtoull(status_of(pid, word), NULL, 16) >> (number - 1) & 1; }

unsigned long long *register_of(struct user_regs_struct *regs, unsigned number) {
    unsigned long long *all[] = {&regs->rax, &regs->rcx, &regs->rdx, &regs->rbx, &regs->rsp, &regs->rbp, &regs->rsi, &regs->rdi,
                                 &regs->r8,  &regs->r9,  &regs->r10, &regs->r11, &regs->r12, &regs->r13, &regs->r14, &regs->r15};
    return all[number & 15];
}

static uint64_t value_of(uint64_t kind, uint64_t value, const struct told *told) {
    if (!told->header_count)
        return value;
    return kind == AT_PHDR ? told->headers_at : kind == AT_PHNUM ? told->header_count : kind == AT_ENTRY ? told->entry : value;
}

/* Above the stack pointer lie the count of arguments, these and a zero, the environment and a zero, and the vector, which ends with AT_NULL. */
bool change_vector(pid_t tid, uint64_t rsp, const struct told *told, bool hides_vdso) {
    uint64_t count, word = 1, was[2];
    if (!read_word(tid, rsp, &count))
        return true;
    uint64_t at = rsp + WORD * (count + 2);
    while (word && read_word(tid, at, &word))
        at += WORD;
    for (; read_memory(tid, at, was, sizeof was) && was[0] != AT_NULL; at += sizeof was) {
        const uint64_t is[] = {hides_vdso && was[0] == AT_SYSINFO_EHDR ? AT_IGNORE : was[0], value_of(was[0], was[1], told)};
        if (memcmp(is, was, sizeof is) && !write_memory(tid, at, is, sizeof is))
            return false;
    }
    return true;
}
