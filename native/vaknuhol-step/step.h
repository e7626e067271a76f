/* What a run under single steps is asked for, and what it has told so far. */
#ifndef STEP_H
#define STEP_H
#include <stdbool.h>
#include <stdint.h>
#include <stdio.h>
#include <sys/types.h>
#include <sys/user.h>

/* What is listed of each byte of the text. */
enum { LISTED = 1, START = 2 };

/* What was seen at an address; each is told once. */
enum { SEEN_UNLISTED = 1, SEEN_READ = 2, SEEN_AT = 4 };

struct text {
    uint32_t lo, hi;
    uint8_t *listed, *seen; /* a byte for each byte from lo on */
};

/* Reads which bytes are listed (native/vaknuhol-list/list_file.h). */
void read_text(struct text *text, const char *path);

/* Marks the listed bytes that the next instruction of a stopped process reads as data; whether that instruction calls the kernel. */
bool mark_reads(struct text *text, pid_t process, struct user_regs_struct *registers);

/* What a stopped process is about to ask of the kernel. */
void watch_call(pid_t process, const struct user_regs_struct *registers);

/* Whether it steps itself, or has told the kernel of a restartable sequence. */
void watch_state(pid_t process, const struct user_regs_struct *registers);

/* A line of each that was seen (main.c). */
void write_events(FILE *out);
#endif
