#include "script.h"

#include <stdlib.h>

#include "child.h"
#include "refusing.h"
#include "shadow.h"

enum { MOST_REGIONS = 16, MOST_ZEROS = 16777216 };

static const char *NAMES[] = {"rax", "rcx", "rdx", "rbx", "rsp", "rbp", "rsi", "rdi", "r8", "r9", "r10", "r11", "r12", "r13", "r14", "r15"};

void write_question(FILE *entries, const struct decoded *insn) {
    uint8_t bytes[MOST_BYTES];
    uint64_t names = 0;
    bool is_named = question_of(insn, bytes, &names);
    fputs("ask ", entries);
    for (int at = 0; at < insn->insn.length; at++)
        fprintf(entries, "%02x", bytes[at]);
    fprintf(entries, is_named ? " %016lx\n" : " -\n", names);
}

void write_changes(FILE *entries, struct user_regs_struct *before, struct user_regs_struct *after) {
    for (int at = 0; at < 16; at++)
        if (*register_of(before, at) != *register_of(after, at))
            fprintf(entries, "set %s %016llx\n", NAMES[at], *register_of(after, at));
    if (before->eflags != after->eflags)
        fprintf(entries, "set flags %016llx\n", after->eflags);
    if (before->fs_base != after->fs_base)
        fprintf(entries, "set fs %016llx\n", after->fs_base);
    if (before->gs_base != after->gs_base)
        fprintf(entries, "set gs %016llx\n", after->gs_base);
}

static void write_values(FILE *file, struct user_regs_struct *regs) {
    for (int at = 0; at < 16; at++)
        fprintf(file, "%s %016llx\n", NAMES[at], *register_of(regs, at));
    fprintf(file, "flags %016llx\nfs %016llx\ngs %016llx\n", regs->eflags, regs->fs_base, regs->gs_base);
}

void write_state(FILE *states, uint64_t steps, struct user_regs_struct *regs) {
    fprintf(states, "steps %lu\nrip %016llx\n", steps, regs->rip);
    write_values(states, regs);
}

void write_due(FILE *deliveries, uint64_t steps, struct user_regs_struct *regs) {
    fprintf(deliveries, "due %016lx\n", steps);
    write_values(deliveries, regs);
    fprintf(deliveries, "rip %016llx\n", regs->rip);
}

struct stack read_stack(uint64_t rsp) {
    struct stack stack = {.end = end_of_range(rsp)};
    stack.bytes = malloc(stack.end - rsp);
    if (!stack.bytes || stack.end == rsp)
        die("the stack can't be read");
    for (uint64_t at = rsp, next; at < stack.end; at = next) {
        next = (at / PAGE + 1) * PAGE;
        if (!read_memory(tracee(), at, stack.bytes + (at - rsp), next - at))
            die("the stack can't be read");
    }
    return stack;
}

/* A region of zeros for each part of a range. */
static int write_zeros(FILE *world, struct range range) {
    int count = 0;
    for (uint64_t lo = range.lo, hi; lo < range.hi; lo = hi, count++) {
        hi = range.hi - lo > MOST_ZEROS ? lo + MOST_ZEROS : range.hi;
        fprintf(world, "zero %016lx %016lx %s\n", lo, hi, range.executable ? "rwx" : "rw-");
    }
    return count;
}

static int write_bytes(FILE *world, uint64_t lo, uint64_t end, const uint8_t *bytes) {
    int count = 0;
    for (uint64_t hi; lo < end; bytes += hi - lo, lo = hi, count++) {
        hi = end - lo > PAGE ? lo + PAGE : end;
        fprintf(world, "bytes %016lx rw- ", lo);
        for (uint64_t at = lo; at < hi; at++)
            fprintf(world, "%02x", bytes[at - lo]);
        fputc('\n', world);
    }
    return count;
}

/* The regions: the filled part of the stack, and zeros for all else that was mapped beside the file. */
static void write_regions(FILE *world, uint64_t rsp, const struct stack *stack) {
    const struct range *ranges;
    int count = 0, most = seen_ranges(&ranges);
    for (int at = 0; at < most; at++) {
        struct range range = ranges[at], after = range;
        bool has_stack = range.lo <= rsp && rsp < range.hi;
        if (has_stack)
            range.hi = rsp, after.lo = stack->end;
        count += write_zeros(world, range);
        if (has_stack)
            count += write_bytes(world, rsp, stack->end, stack->bytes) + write_zeros(world, after);
    }
    if (count > MOST_REGIONS)
        refuse("the run needs %d regions of memory; a script has at most %d", count, MOST_REGIONS);
}

static void copy(FILE *world, struct part part) {
    static char buffer[1 << 16];
    rewind(part.file);
    for (long size; part.count > 0; part.count -= size) {
        size = fread(buffer, 1, part.count < (long)sizeof buffer ? part.count : (long)sizeof buffer, part.file);
        if (size <= 0)
            die("the entries can't be read");
        fwrite(buffer, 1, size, world);
    }
}

void write_world(FILE *world, struct user_regs_struct *regs, const struct stack *stack, struct part deliveries, struct part entries) {
    if (deliveries.count > 0)
        fputs("e9world 2\n", world);
    copy(world, deliveries);
    fputs("e9world 1\n", world);
    write_values(world, regs);
    write_regions(world, regs->rsp, stack);
    copy(world, entries);
    fputs("end\n", world);
    if (ferror(entries.file) || ferror(deliveries.file) || fclose(world))
        die("the script can't be written");
}
