#define _GNU_SOURCE
#include "record.h"

#include <stdlib.h>
#include <sys/syscall.h>
#include <ucontext.h>

#include "refusing.h"
#include "script.h"
#include "shadow.h"

void count_step(struct record *record, const struct decoded *insn, struct user_regs_struct *before, struct user_regs_struct *after) {
    uint64_t jumps = after->rip != insn->rip + insn->insn.length, word = insn->rip | jumps << 63;
    fwrite(&word, sizeof word, 1, record->path);
    for (int at = 0; at < record->kept_count; at++)
        fwrite(register_of(before, record->kept[at]), sizeof word, 1, record->path);
    record->arrived = *after;
    record->steps++;
}

/* What the kernel changed, after what else belongs to the delivery. */
static void write_delivery(struct record *record, struct user_regs_struct *regs, const char *first_writes) {
    write_due(record->deliveries, record->steps, regs);
    fputs(first_writes, record->deliveries);
    take_all(record->deliveries);
}

/* What a repeated instruction has written before a signal came. */
static char *begun_writes(const struct decoded *insn, struct user_regs_struct *before, const struct user_regs_struct *after) {
    struct span spans[MOST_SPANS];
    char *text = 0;
    size_t size;
    FILE *file = open_memstream(&text, &size);
    if (!file)
        die("no memory");
    if (repeats_string(insn) && after->rcx != before->rcx)
        take_spans(spans, spans_of(insn, before, spans), file);
    if (fclose(file))
        die("no memory");
    return text;
}

/* A step of a system call that leaves memory to the delivery after it. */
static void write_call(struct record *record, const struct decoded *insn, struct user_regs_struct *before, uint64_t answer) {
    struct user_regs_struct called = *before;
    called.rip = called.rcx = insn->rip + insn->insn.length;
    called.r11 = before->eflags;
    called.rax = answer;
    write_question(record->entries, insn);
    write_changes(record->entries, before, &called);
    record->asked++;
    count_step(record, insn, before, &called);
}

/* A register that the frame of the handler keeps. */
static uint64_t kept_in_frame(const struct user_regs_struct *in_handler, int number) {
    uint64_t value = 0, context = in_handler->rsp + sizeof(void *);
    if (!read_memory(tracee(), context + offsetof(ucontext_t, uc_mcontext.gregs) + number * sizeof(greg_t), &value, sizeof value))
        die("the frame of a handler can't be read");
    return value;
}

enum outcome deliver(struct record *record, const struct decoded *insn, struct user_regs_struct *before, struct user_regs_struct *after) {
    bool ends_call = is_syscall(insn) && after->rip != insn->rip;
    char *first_writes = begun_writes(insn, before, after);
    if (ends_call) { /* all was taken over before the call; what it wrote belongs to the delivery */
        after->r11 = before->eflags;
        set_regs(tracee(), after);
    } else
        take_all(0);
    bool is_entered = enter_handler(after);
    if (is_entered && ends_call && kept_in_frame(after, REG_RIP) != insn->rip)
        write_call(record, insn, before, kept_in_frame(after, REG_RAX));
    if (is_entered)
        write_delivery(record, after, first_writes);
    free(first_writes);
    return is_entered ? CAME : ENDED;
}

bool is_return(const struct decoded *insn, const struct user_regs_struct *before) { return is_syscall(insn) && before->rax == SYS_rt_sigreturn; }

enum outcome make_return(struct record *record, const struct decoded *insn, struct user_regs_struct *before, struct user_regs_struct *after) {
    take_all(0);
    enum outcome outcome = make_step(insn, after);
    if (outcome != MADE)
        return outcome == CAME ? deliver(record, insn, before, after) : ENDED;
    rest();
    write_call(record, insn, before, before->rax);
    write_delivery(record, after, "");
    return CAME;
}
