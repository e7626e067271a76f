/* A process that is traced: its memory, its registers, what the kernel says of it. */
#ifndef PROCESS_H
#define PROCESS_H
#include <stdbool.h>
#include <stddef.h>
#include <stdint.h>
#include <sys/types.h>
#include <sys/user.h>

enum { TRAP_FLAG = 0x100, RESUME_FLAG = 0x10000 }; /* of the flags: a trap after each instruction; none after the next one */

bool read_memory(pid_t tid, uint64_t at, void *to, size_t length);
bool write_memory(pid_t tid, uint64_t at, const void *from, size_t length);

/* Writes code, which the process itself may not; whether that was done. */
bool write_code(pid_t tid, uint64_t at, const uint8_t *code, size_t length);

/* The eight bytes at an address as a number; whether they could be read: the memory of a process that isn't dumpable can't be, but by root. */
bool read_word(pid_t tid, uint64_t at, uint64_t *word);

/* What /proc says of a process after a text (a word, and a newline before it, which no name of a process has), until it is asked again. */
const char *status_of(pid_t pid, const char *word);

/* Whether a signal is one of the set that the status has after a text: "\nSigBlk:", "\nSigIgn:", "\nSigCgt:". */
bool is_signal_in(pid_t pid, const char *word, int number);

/* A register by its number in instructions. */
unsigned long long *register_of(struct user_regs_struct *regs, unsigned number);

/* What the kernel tells the original of itself: where its program headers lie, how many they are, where it begins. */
struct told {
    uint64_t headers_at, header_count, entry;
};

/* In the auxiliary vector of a process that begins a program, what is told of headers and entry is changed, where their count isn't 0, and of a vDSO,
   whose code is no part of the file, if it is to be hidden. Where the vector can't be read, it stays; false where it can't be changed. */
bool change_vector(pid_t tid, uint64_t rsp, const struct told *told, bool hides_vdso);
#endif
