/* The process whose run is recorded: how it goes on, one instruction after the other, and ends. There is one such process. */
#ifndef CHILD_H
#define CHILD_H
#include <signal.h>
#include <stdbool.h>

#include "tracee.h"

enum { PAGE = 4096 };

/* Starts it. */
void start(char **command);

/* Its number. */
pid_t tracee(void);

/* Whether it runs the program that was started. */
bool is_running(void);

/* The path of a file of the process in /proc; it stands until the next call. */
const char *proc_path(const char *name);

/* Entries of its pagemap, from a page on; whether they can be read. */
bool read_pagemap(uint64_t page, uint64_t *entries, size_t count);

/* Notes why the run ends; returns 0. */
int ends_by(const char *why);

/* Why the run ended. */
const char *ending(void);

/* Goes on for one instruction, with a signal if it isn't 0; the signal of the next stop, SIGTRAP where one is made, or 0 where the run
   ends. */
int go_on(int number);

/* What is told of the signal of this stop. */
void get_info(siginfo_t *info);
void set_info(const siginfo_t *info);

/* Makes a system call in the process, at its first instruction, and leaves all else as it was. */
uint64_t call(const struct user_regs_struct *regs, uint64_t number, uint64_t argument);
#endif
